create stream Closes (day int, symbol text, close decimal(2));
create query averages as
  Select Rstream(f.symbol, Avg(f.close) As fast, Avg(s.close) As slow)
  From Closes [Range 4] f, Closes [Range 19] s
  Where f.symbol = s.symbol Group By f.symbol Having Count(*) = 100;
create query records as
  Select Istream(symbol, Max(close) As highest) From Closes Where symbol = 'DAX' Group By symbol;
copy Closes from 'eu_stock_markets.csv' time day;
show averages first 4;
show records last 3;
explain averages;
