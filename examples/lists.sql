-- Lists of a club, for `sqlite3 -readonly`, on a back-up or while no server runs. They print no root.

-- Members: balance and quota.
SELECT name, max(credited - used, 0) AS balance, quota FROM members ORDER BY name;

-- Keys of a member, with the moment when the key's older root expires.
SELECT keys.name, revoked, strftime('%Y-%m-%dT%H:%M', until * 60, 'unixepoch')
FROM keys LEFT JOIN old_roots ON pass_key = keys.name
WHERE member = 'amy' ORDER BY keys.name;

-- Bookings of a member, from a day on.
SELECT date(day * 86400, 'unixepoch'), hour, facility, pass_key, number, guests + 1 AS persons, charge
FROM bookings JOIN keys ON keys.name = pass_key
WHERE member = 'amy' AND cancelled = 0 AND day >= strftime('%s', '2026-05-01') / 86400
ORDER BY day, hour, facility, pass_key, number;

-- Closed slots.
SELECT facility, date(day * 86400, 'unixepoch'), hour FROM slots WHERE closed = 1 ORDER BY facility, day, hour;
