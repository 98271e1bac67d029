-- Corrections by hand, for `sqlite3 -bail`. Stop the desk and make a back-up first. Copy one correction into a file, with your own names and numbers.
-- If a statement fails, SQLite's shell stops and changes nothing. A correction prints how many rows it found. If it prints 0, it changed nothing.
-- Afterwards, each query of sums.sql must print 0.

-- A credit that was too high: takes back 500 points, unless the member's balance is below 500.
PRAGMA foreign_keys = ON;
BEGIN IMMEDIATE;
UPDATE members SET credited = credited - 500 WHERE name = 'amy' AND credited - 500 >= used;
SELECT changes();
COMMIT;

-- Another quota, 0 to 99. Open bookings stay, even if they exceed a lowered quota.
PRAGMA foreign_keys = ON;
BEGIN IMMEDIATE;
UPDATE members SET quota = 8 WHERE name = 'amy';
SELECT changes();
COMMIT;

-- A slot that is open again.
PRAGMA foreign_keys = ON;
BEGIN IMMEDIATE;
UPDATE slots SET closed = 0
WHERE facility = 'court-1' AND day = strftime('%s', '2026-05-01') / 86400 AND hour = 9 AND closed = 1;
SELECT changes();
COMMIT;

-- Cancel for a revoked key: cancels booking 7 of amy-1, refunds the whole charge and frees the places. Changes the totals `used` and `taken`, too.
PRAGMA foreign_keys = ON;
BEGIN IMMEDIATE;
CREATE TEMP TABLE found AS SELECT * FROM bookings WHERE pass_key = 'amy-1' AND number = 7 AND cancelled = 0;
UPDATE bookings SET cancelled = 1, refund = charge
WHERE (pass_key, number) IN (SELECT pass_key, number FROM found);
UPDATE members SET used = used - (SELECT charge FROM found)
WHERE name IN (SELECT member FROM keys JOIN found ON keys.name = pass_key);
UPDATE slots SET taken = taken - (SELECT guests + 1 FROM found)
WHERE (facility, day, hour) IN (SELECT facility, day, hour FROM found);
SELECT count(*) FROM found;
COMMIT;
