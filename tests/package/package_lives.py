"""A client that runs in the fresh Debian: client DAY. The client books and cancels until the file /root/enough exists, and retries while no desk
answers. The file /root/field has the header field with the client's pass. package_lives.sh runs this program."""
import json
import os
import sys
import time
import urllib.request

field = open("/root/field", encoding="ascii").read().split(": ", 1)[1].strip()
number = 1000
tries = 0
while not os.path.exists("/root/enough"):
    number += 1
    for method in ("PUT", "DELETE") if number % 3 else ("PUT", "DELETE", "DELETE"):
        while True:
            request = urllib.request.Request(
                f"http://127.0.0.1:8080/slots/court-1/{sys.argv[1]}/20/bookings/{number}",
                method=method,
                headers={"Authorization": field},
                data=b'{"guests":0}' if method == "PUT" else None,
            )
            try:
                with urllib.request.urlopen(request, timeout=20) as reply:
                    print(number, method, json.loads(reply.read()), flush=True)
                break
            except urllib.error.HTTPError as fault:
                if fault.code != 503:
                    sys.exit(f"{method} {number}: {fault.code} {fault.read()}")
            except OSError:
                tries += 1
                if tries > 2000:
                    sys.exit("the desk doesn't come back")
            time.sleep(0.05)
print("tries", tries, file=sys.stderr)
