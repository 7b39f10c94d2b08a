-- Under MVCC a reader waits for nobody. Of two writers of one row the second waits, and at SERIALIZABLE it is refused as the
-- first one commits.
a: SET DATABASE TRANSACTION CONTROL MVCC;
a: CREATE TABLE ACCT (ID INTEGER PRIMARY KEY, BAL INTEGER);
a: INSERT INTO ACCT VALUES (1,100),(2,50);
a: START TRANSACTION ISOLATION LEVEL SERIALIZABLE;
b: START TRANSACTION ISOLATION LEVEL SERIALIZABLE;
a: UPDATE ACCT SET BAL = BAL - 30 WHERE ID = 1;
-- Neither b nor c sees what a hasn't committed, and neither waits for it.
b: SELECT BAL FROM ACCT;
c: SELECT BAL FROM ACCT;
-- Now b wants the row that a has changed. It waits, and is refused and rolled back as a commits.
b: UPDATE ACCT SET BAL = BAL - 40 WHERE ID = 1;
a: COMMIT;
-- It tries again, over what a has left.
b: UPDATE ACCT SET BAL = BAL - 40 WHERE ID = 1;
c: SELECT BAL FROM ACCT;
