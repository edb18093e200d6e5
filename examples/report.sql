# What `report` tells of a server that has the rows of report.rows: sales by shop. docs/REPORTS.md goes through it.
agg 1 SELECT shop, COUNT(*), SUM(amount), MAX(amount) FROM sale WHERE day BETWEEN 1 AND 3 GROUP BY shop
# The same report again, and one of a single day: from what is held.
agg 1 SELECT shop, COUNT(*), SUM(amount), MAX(amount) FROM sale WHERE day BETWEEN 1 AND 3 GROUP BY shop
agg 1 SELECT COUNT(*), MIN(amount) FROM sale WHERE day = 2
# One day more: only that day is asked.
agg 1 SELECT shop, SUM(amount) FROM sale WHERE day BETWEEN 2 AND 4 GROUP BY shop
