-- Alerts over the log of a web server: addresses with ten errors or more within a minute, and the
-- load of each half minute. Run it in this folder: `../cql alerts.sql`.

create stream Log (ip text, path text, status int, took decimal(3)) unit second;

create query attacks as
  Select Istream(ip, Count(*) As errors)
  From Log [Range 1 minute] Where status >= 400 Group By ip Having errors >= 10;

create query load as
  Select Rstream(Count(*) As requests, Avg(took) As mean, Max(took) As worst)
  From Log [Range 30 seconds Slide 30 seconds] Every 30 seconds;

create query logins as
  Select Rstream(ip, status) From Log [Now] Where path = '/login' And Not status = 200;

copy Log from 'access.csv' time time;

show attacks;
show load last 4;
show logins first 3;
