#!/usr/bin/env python3
"""Writes a script that adds messages in decoded form, since the filter looks at lines as they stand.

  examples/decode-mail.py PATH.. | ./run --store STORE     a mailbox file, or a folder that is a maildir
  examples/decode-mail.py < MESSAGE                        one message, in decoded form and with no script around it

Each message keeps the header fields that the filter reads, with encoded words decoded (RFC 2047). Its body is the text of its
parts (base64 and quoted-printable decoded, any charset as UTF-8; of alternatives the plain one; HTML without its tags). Attachments
are named and left out. All arrive at the moment AT of the environment, now if it isn't set.
"""

import mailbox
import os
import re
import sys
import time

sys.path.insert(0, os.path.join(os.path.dirname(os.path.dirname(os.path.realpath(__file__))), "service"))

from tapestry_service.decode import decoded  # noqa: E402
from tapestry_service.messages import MESSAGE_LIMIT, stored_text  # noqa: E402


def messages_of(path):
    if os.path.isdir(path):
        box = mailbox.Maildir(path, create=False)
        for key in sorted(box.iterkeys()):
            yield box.get_bytes(key)
    else:
        box = mailbox.mbox(path, create=False)
        for key in box.iterkeys():
            # A mailbox file has one `>` more before such a line.
            yield re.sub(rb"^>(>*From )", rb"\1", box.get_bytes(key), flags=re.MULTILINE)


def main(paths):
    out = sys.stdout.buffer
    if not paths:
        out.write(decoded(sys.stdin.buffer.read()))
        return 0
    out.write(f"at {os.environ.get('AT') or int(time.time())}\n".encode())
    left_out = 0
    for path in paths:
        for raw in messages_of(path):
            text = stored_text(decoded(raw))
            if len(text.text) > MESSAGE_LIMIT:
                left_out += 1
                continue
            out.write(text.mail)
    if left_out:
        print(f"decode-mail: {left_out} messages of more than {MESSAGE_LIMIT} bytes were left out", file=sys.stderr)
    return 1 if left_out else 0


if __name__ == "__main__":
    if sys.argv[1:2] in (["-h"], ["--help"]):
        sys.exit(__doc__)
    sys.exit(main(sys.argv[1:]))
