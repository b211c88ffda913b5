"""Writes the frames of the requests in tap.bin to requests.bin and those of the replies to replies.bin."""

with open("tap.bin", "rb") as tap, open("requests.bin", "wb") as requests, open("replies.bin", "wb") as replies:
    data, at = tap.read(), 0
    while at < len(data):
        behind = at + 6 + int.from_bytes(data[at + 2 : at + 6], "big")
        (requests if data[at + 1] < 0x80 else replies).write(data[at:behind])
        at = behind
