"""Conversations that are recorded, and played back at once by a process of its own."""
import contextlib, multiprocessing, select, socket, threading

AT_ONCE = 1 << 20
TIMES = 2


def recorded(port, connect, say):
    """The texts that a client sends, and what answers each, of a conversation in which something is said twice."""
    table, listener = {}, socket.create_server(("127.0.0.1", 0))
    thread = threading.Thread(target=_record, args=(port, listener, table))
    thread.start()
    with connect(listener.getsockname()[1]) as connection:
        for _ in range(TIMES):
            say(connection)
    thread.join()
    listener.close()
    return table


def _record(port, listener, table):
    client, _ = listener.accept()
    asked, answered = b"", b""
    with client, socket.create_connection(("127.0.0.1", port)) as server:
        while True:
            readable = select.select([client, server], [], [])[0]
            data = (client if client in readable else server).recv(AT_ONCE)
            if client in readable:
                if answered or not data:
                    table[asked], asked, answered = answered, b"", b""
                if not data:
                    return
                asked += data
                server.sendall(data)
            else:
                answered += data
                client.sendall(data)


@contextlib.contextmanager
def replayed(table):
    """The port of a process that plays a conversation back."""
    listener = socket.create_server(("127.0.0.1", 0))
    process = multiprocessing.get_context("fork").Process(target=_replay, args=(listener, table), daemon=True)
    process.start()
    try:
        yield listener.getsockname()[1]
    finally:
        process.kill()
        process.join()
        listener.close()


def _replay(listener, table):
    client, _ = listener.accept()
    client.setsockopt(socket.IPPROTO_TCP, socket.TCP_NODELAY, 1)
    asked = b""
    while data := client.recv(AT_ONCE):
        asked += data
        if asked in table:
            client.sendall(table[asked])
            asked = b""
