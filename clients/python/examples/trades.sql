-- How much of each symbol was traded in each minute, and at what price on average?
-- Run it in this folder: `../cql trades.sql`.

create stream Trades (symbol text, price decimal(2), amount int) unit second;

create query volume as
  Select Rstream(symbol, Sum(amount) As volume, Avg(price) As mean)
  From Trades [Range 1 minute Slide 1 minute] Group By symbol
  Having volume > 100 Every 1 minute;

copy Trades from 'trades.csv' time second;

show volume;
explain volume;
