#!/usr/bin/env python3
"""client.py PROGRAM ARGUMENTS..: an application that talks to the program over its standard streams, a line at a time.

The client is the class `Store`; below it stands a small conversation, whose output is client.answers.
"""
import json
import queue
import subprocess
import sys
import threading

class Store:
    """The running program. `notify` gets each notification as soon as it is there, in the thread that reads."""

    def __init__(self, command_line, notify):
        self.program = subprocess.Popen(command_line, stdin=subprocess.PIPE, stdout=subprocess.PIPE, encoding="utf-8")
        self.notify, self.answers = notify, queue.Queue()
        self.reader = threading.Thread(target=self.read_lines, daemon=True)
        self.reader.start()

    def read_lines(self):
        """Parts answers and notifications, which come in the order of the events: each answer, and then what it brought about."""
        for line in self.program.stdout:
            shown = json.loads(line)
            (self.notify if "notice" in shown else self.answers.put)(shown)
        self.answers.put({"error": "Ended"})

    def send(self, do, **keys):
        """Sends an event, and returns its answer: with the key `ok`, or with `error` where the event was refused."""
        self.program.stdin.write(json.dumps({"do": do, **keys}) + "\n")
        self.program.stdin.flush()
        return self.answers.get()

    def close(self):
        """Ends the program, and returns its exit status."""
        self.program.stdin.close()
        self.reader.join()
        return self.program.wait()

def show(shown):
    book = shown["data"]
    print(f'{book["title"]} by {book["author"]["name"]} {"*" * book["stars"]}')

def main():
    emma = {"id": "b1", "title": "Emma", "stars": 3, "author": {"name": "Jane Austen"}}
    store = Store(sys.argv[1:], show)
    store.send("retain", handle="page", op="BookPage", vars={"id": "b1"})
    store.send("payload", handle="page", response={"data": {"book": emma}}, updates=[{"create": {"id": "b9", "type": "Book"}}])
    show(store.send("watch", watch="card", handle="page", fragment="BookCard", id="b1"))
    # The reader gives five stars, which are shown at once. Meanwhile a sweep removes the book that no page shows.
    store.send("begin", layer="rate", updates=[{"set": {"id": "b1", "field": "stars", "value": 5}}])
    print("dropped", store.send("collect")["dropped"])
    # The server refuses: the layer is dropped, once.
    store.send("revert", layer="rate")
    print(store.send("revert", layer="rate")["error"])
    print("exit status", store.close())

if __name__ == "__main__":
    main()
