-- Session b asks for what a has changed and not committed yet, and waits until a has.
a: CREATE TABLE T (ID INTEGER PRIMARY KEY, V INTEGER);
a: INSERT INTO T VALUES (1,10);
a: SET AUTOCOMMIT FALSE;
a: UPDATE T SET V = 11 WHERE ID = 1;
b: SELECT V FROM T;
a: COMMIT;
