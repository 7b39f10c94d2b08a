-- Each of two sessions has changed a table that the other one wants. The one that would close the circle is refused, and its
-- transaction is rolled back.
a: CREATE TABLE T (ID INTEGER PRIMARY KEY, V INTEGER);
a: CREATE TABLE U (ID INTEGER PRIMARY KEY, V INTEGER);
a: INSERT INTO T VALUES (1,10);
a: INSERT INTO U VALUES (1,20);
a: SET AUTOCOMMIT FALSE;
b: SET AUTOCOMMIT FALSE;
a: UPDATE T SET V = 11;
b: UPDATE U SET V = 21;
a: UPDATE U SET V = 22;
b: UPDATE T SET V = 12;
a: COMMIT;
