# What a client asks of a server that has the rows of sale.csv: docs/FIRST-SESSION.md goes through it.
query 1 SELECT id, amount FROM sale WHERE amount BETWEEN 0 AND 2000
query 1 SELECT id, amount FROM sale WHERE amount BETWEEN 1000 AND 1500

# A write goes to the server. The client learns of its change by a notice, and its next query sees it.
write 1 UPDATE sale SET amount = 950 WHERE id = 12
query 1 SELECT id, amount FROM sale WHERE amount BETWEEN 900 AND 1500

# Without a link, what is held is answered, and the rest is not.
cut 1
query 1 SELECT id, amount FROM sale WHERE amount BETWEEN 0 AND 100
query 1 SELECT id, amount FROM sale WHERE amount BETWEEN 0 AND 100000

# A new connection. What is held is kept, and only the rest is asked.
resume 1
query 1 SELECT id, amount FROM sale WHERE amount BETWEEN 0 AND 100000
