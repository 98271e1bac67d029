"""Hands texts to the machine's mailer."""

import os
import subprocess

from club_office.clubs import back_up_program

# The greatest number of seconds that the mailer may take for a text.
PATIENCE = 60


def sent(address: str, subject: str, text: str) -> bool | None:
    """Hands a text to the mailer, and returns whether the mailer took it. Returns None if the mailer took too long."""
    mailer = os.path.join(os.path.dirname(back_up_program()), "send_mail")
    try:
        done = subprocess.run(
            [mailer, address, subject],
            input=text,
            text=True,
            capture_output=True,
            check=False,
            timeout=PATIENCE,
        )
    except subprocess.TimeoutExpired:
        return None
    return done.returncode == 0 and not done.stderr
