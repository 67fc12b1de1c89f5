"""How large should the window of a controller be? A notebook as a script: each cell begins with `# %%`.

    PYTHONPATH=bindings/python python3 bindings/python/examples/control_loop.py

It runs over the shared object of bindings/c/build where that is there, and else over the program (`taprio.backend` says which)."""

# %% The traffic: a controller sends every 250 us with priority 6, and a file transfer full frames with priority 0.
import taprio

control = taprio.Stream(first_id=1, priority=6, length=64, period=250_000, offset=1_000_000, count=40)
load = taprio.Stream(first_id=1000, priority=0, length=1514, period=20_000, offset=1_000_000, count=500)


# %% The schedule: in each cycle of 250 us the controller (class 1) has a window to itself, and the rest is for the transfer (class 0).
def schedule(window):
    return taprio.Schedule([(0x02, window), (0x01, 250_000 - window)], map=[0, 0, 0, 0, 0, 0, 1, 0])


print(schedule(50_000).tc())

# %% What does each class get? Times are picoseconds, frames octets.
for row in taprio.read_check(taprio.backend().check(schedule(50_000).tc(), windows=True)).rows():
    print(row)

# %% How long do both wait? With no schedule the controller waits behind the transfer; a window that is too large starves the transfer.
print("window us   control us   transfer us   left")
for window in (None, 20_000, 40_000, 60_000, 80_000, 100_000):
    run = taprio.run_streams(window and schedule(window), [control, load], until_ns=20_000_000)
    longest = [max(frame.wait for frame in run.of(stream.ids) if frame.wait is not None) / 1e6 for stream in (control, load)]
    print(f"{window and window // 1000 or 'none':>9}   {longest[0]:10.3f}   {longest[1]:11.3f}   {sum(run.left.values()):4}")

# %% Each frame of the last run, as a row: pandas.DataFrame(run.rows()) makes a table of them, and taprio.plot(run) a picture.
for row in run.rows()[:2]:
    print(row)
