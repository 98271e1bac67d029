-- Tests the stored totals and the references between rows. Each query must print 0.
SELECT count(*) FROM members WHERE used <> (SELECT total(charge - refund)
FROM bookings JOIN keys ON keys.name = pass_key WHERE member = members.name);
SELECT count(*) FROM slots WHERE taken <> (SELECT total(guests + 1) FROM bookings
WHERE cancelled = 0 AND bookings.facility = slots.facility AND bookings.day = slots.day AND bookings.hour = slots.hour);
SELECT count(*) FROM pragma_foreign_key_check;
