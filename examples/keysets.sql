# What `semi` asks of a server that has the rows of keysets.rows. A join is run by its sides, under one line number.
# First the people of these ages, who are all of department 1; then that department alone. `client` would ask for all departments.
query 1 SELECT emp.name, dept.title FROM emp JOIN dept ON emp.dept = dept.id WHERE emp.age BETWEEN 30 AND 50
# Of more ages, only the others are asked; and of the two departments the one that is not held.
query 1 SELECT emp.name, dept.title FROM emp JOIN dept ON emp.dept = dept.id WHERE emp.age BETWEEN 30 AND 60
# Nobody is so old. Without a key the departments are not asked.
query 1 SELECT emp.name, dept.title FROM emp JOIN dept ON emp.dept = dept.id WHERE emp.age BETWEEN 90 AND 99
# Both sides are held: nothing is sent.
query 1 SELECT emp.name, dept.title FROM emp JOIN dept ON emp.dept = dept.id WHERE emp.age BETWEEN 50 AND 60
# Any other query is run as it is.
query 1 SELECT title FROM dept WHERE id = 1
