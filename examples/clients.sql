# Two clients over one table, under `--clients 2 --log 1`. Messages are delivered as the lines say.
CREATE TABLE sale (id INT PRIMARY KEY CHECK (id BETWEEN 1 AND 99999), amount INT CHECK (amount BETWEEN 0 AND 1000000))
exec INSERT INTO sale VALUES (101, 250), (102, 1200), (103, 75)

# Both hold a range at version 1.
query 1 SELECT id, amount FROM sale WHERE amount BETWEEN 0 AND 999
settle 1
query 2 SELECT id, amount FROM sale WHERE amount BETWEEN 1000 AND 9999
settle 2

# An amount moves from one range to the other. Client 1 is told; client 2 still answers at version 1, and that is right.
exec UPDATE sale SET amount = 1300 WHERE id = 103
push 1
toclient 1
query 1 SELECT id, amount FROM sale WHERE amount BETWEEN 0 AND 500
query 2 SELECT id, amount FROM sale WHERE amount BETWEEN 1000 AND 2000

# While client 2 asks for more, the log forgets version 2. So what comes cannot be joined to what is held, and the whole is asked anew.
query 2 SELECT id, amount FROM sale WHERE amount BETWEEN 500 AND 2000
exec UPDATE sale SET amount = 700 WHERE id = 101
settle 2

# The link of client 1 is cut: what is covered is answered, the rest is not. Then it resumes, and keeps what it holds.
cut 1
query 1 SELECT id FROM sale WHERE amount BETWEEN 0 AND 100
query 1 SELECT id FROM sale WHERE amount BETWEEN 0 AND 2000
resume 1
settle 1
query 1 SELECT id, amount FROM sale WHERE amount BETWEEN 0 AND 999
