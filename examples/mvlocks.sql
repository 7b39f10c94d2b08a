-- Under MVLOCKS a read-only transaction sees the database as it was at its start, and is in nobody's way. Writers lock tables.
a: SET DATABASE TRANSACTION CONTROL MVLOCKS;
a: CREATE TABLE ACCT (ID INTEGER PRIMARY KEY, BAL INTEGER);
a: INSERT INTO ACCT VALUES (1,100),(2,50);
r: START TRANSACTION READ ONLY;
r: SELECT BAL FROM ACCT WHERE ID = 1;
a: START TRANSACTION ISOLATION LEVEL SERIALIZABLE;
a: UPDATE ACCT SET BAL = BAL - 30 WHERE ID = 1;
a: UPDATE ACCT SET BAL = BAL + 30 WHERE ID = 2;
-- Session b may write, and so it waits for the lock of a.
b: UPDATE ACCT SET BAL = BAL + 1 WHERE ID = 2;
a: COMMIT;
-- What r reads is still of one state, in which the sum is 150.
r: SELECT BAL FROM ACCT WHERE ID = 2;
r: UPDATE ACCT SET BAL = 0;
r: COMMIT;
r: SELECT SUM(BAL) FROM ACCT;
