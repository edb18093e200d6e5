# A reporting client over one table; replay it with `--eager`. Each line of the trace begins with the number of the line here that it belongs to.
# Line 11 asks the server for its whole range. Line 12 overlaps it: its part line asks the rest of its range alone.
# Line 13 lies inside what the client holds by then, and line 14 says line 11 again: no ask line, nothing is sent.
CREATE TABLE sale (id INT PRIMARY KEY CHECK (id BETWEEN 1 AND 99999), amount INT CHECK (amount BETWEEN 0 AND 1000000))

exec INSERT INTO sale VALUES (101, 250), (102, 1200), (103, 75)
exec INSERT INTO sale VALUES (104, 980), (105, 4300), (106, 1750)
# The key is there already, so this statement is refused.
exec INSERT INTO sale VALUES (107, 60), (104, 985)

query 1 SELECT id, amount FROM sale WHERE amount BETWEEN 500 AND 1500
query 1 SELECT id, amount FROM sale WHERE amount BETWEEN 1000 AND 5000
query 1 SELECT id, amount FROM sale WHERE amount BETWEEN 900 AND 2000
query 1 SELECT id, amount FROM sale WHERE amount BETWEEN 500 AND 1500
query 1 SELECT amount, id FROM sale WHERE id BETWEEN 101 AND 103
