"""On each day of three years, compares the copies that the script OLD_COPIES keeps and the copies that a rule in Python selects: jobs_hold.py
OLD_COPIES FOLDER. jobs_hold.sh runs this program.

Each day, the program creates at most two empty files with the names of copies. Then the program removes the files that OLD_COPIES prints."""

import datetime
import os
import random
import subprocess
import sys

script, folder = sys.argv[1:]
chance = random.Random(56)
day = datetime.date(2023, 12, 20)
made = []  # every copy that was made, including the removed copies
open(os.path.join(folder, "notes"), "w").close()
for step in range(1100):
    day += datetime.timedelta(days=1)
    gap = 200 <= step < 260  # the machine is off, so it makes no copies
    for at in sorted(chance.sample(range(86400), 0 if gap else chance.choice((0, 1, 1, 1, 1, 2)))):
        made.append(f"{day}T{at // 3600:02}{at // 60 % 60:02}{at % 60:02}Z")
        open(os.path.join(folder, made[-1]), "w").close()
    gone = subprocess.run(
        [script, folder, str(day)], check=True, capture_output=True, text=True
    ).stdout.split()
    for name in gone:
        os.remove(os.path.join(folder, name))
    monday = day - datetime.timedelta(days=day.weekday())
    wanted = {
        it
        for it in made
        if datetime.date.fromisoformat(it[:10]) > day - datetime.timedelta(days=14)
    }
    for back in range(8):
        begin = monday - datetime.timedelta(days=7 * back)
        end = begin + datetime.timedelta(days=6)
        wanted |= set(sorted(it for it in made if str(begin) <= it[:10] <= str(end))[:1])
    for back in range(12):
        year, month = divmod(day.year * 12 + day.month - 1 - back, 12)
        wanted |= set(sorted(it for it in made if it.startswith(f"{year}-{month + 1:02}-"))[:1])
    found = set(os.listdir(folder)) - {"notes"}
    if found != wanted:
        sys.exit(f"{day}: too many {sorted(found - wanted)}, too few {sorted(wanted - found)}")
if len(made) < 1000 or len(found) > 50 or not os.path.exists(os.path.join(folder, "notes")):
    sys.exit(f"{len(made)} copies were made, {len(found)} are left")
