# A client that joins two tables; replay it with `--eager`. Each line of the trace begins with the number of the line here that it belongs to.
# A join goes by the key of the table that it names last: FROM emp JOIN dept ON emp.dept = dept.id. Line 24 has it the other way round.
CREATE TABLE dept (id INT PRIMARY KEY CHECK (id BETWEEN 1 AND 99), title TEXT)
CREATE TABLE emp (id INT PRIMARY KEY CHECK (id BETWEEN 1 AND 9999), name TEXT, age INT CHECK (age BETWEEN 0 AND 150), dept INT CHECK (dept BETWEEN 1 AND 99))

exec INSERT INTO dept VALUES (1, 'lab'), (2, 'shop'), (3, 'yard')
exec INSERT INTO emp VALUES (11, 'ann', 35, 1), (12, 'bob', 52, 2), (13, 'cy', 41, 1), (14, 'dee', 29, 3)

# One ask has a part for each table: the people of these ages, and all departments, since nothing says which of them are joined.
query 1 SELECT emp.name, dept.title FROM emp JOIN dept ON emp.dept = dept.id WHERE emp.age BETWEEN 30 AND 50
# Both parts are held: no ask line, nothing is sent.
query 1 SELECT emp.name, dept.title FROM emp JOIN dept ON emp.dept = dept.id WHERE emp.age BETWEEN 40 AND 50
# The departments are held, and so are some of these ages. The only part line asks for the others.
query 1 SELECT emp.name, dept.title FROM emp JOIN dept ON emp.dept = dept.id WHERE emp.age BETWEEN 30 AND 60

# A department gets another title. The client does not know yet: the same query is answered at its own version, which is right there.
exec UPDATE dept SET title = 'annex' WHERE id = 1
query 1 SELECT emp.name, dept.title FROM emp JOIN dept ON emp.dept = dept.id WHERE emp.age BETWEEN 30 AND 60
# The server tells it. Said again, the query is still covered, and has the new title in both rows that are joined to it.
push 1
query 1 SELECT emp.name, dept.title FROM emp JOIN dept ON emp.dept = dept.id WHERE emp.age BETWEEN 30 AND 60

# Refused: emp is named last, and emp.dept is not its key.
query 1 SELECT emp.name, dept.title FROM dept JOIN emp ON emp.dept = dept.id WHERE emp.age BETWEEN 30 AND 60
