# Runs the program as the runs named here, whose faults are one line, with a terminal as standard error, and prints what it
# said there: a sentence follows each line.
import os, pty, subprocess, sys, tty

runs = os.path.dirname(os.path.dirname(os.path.abspath(__file__)))
for name in """input_that_fails output_that_fails settings_blocks settings_block_size settings_pool_bytes
        settings_lifetime settings_max_size settings_uploads settings_tenants settings_twice settings_quota
        settings_quota_past_64_bits word_that_is_no_tenant word_without_quota word_with_two_quotas word_with_odd_bytes
        word_that_is_no_text quota_in_lower_case""".split():
    run = os.path.join(runs, name)
    read = lambda file: open(os.path.join(run, file), "rb").read() if os.path.exists(os.path.join(run, file)) else b""
    words = [os.fsencode(sys.argv[1]), *read("args").split(b"\n")[:-1]]
    through = os.path.join(run, "through")
    command = [b"bash", os.fsencode(through), *words] if os.path.exists(through) else words
    ours, theirs = pty.openpty()
    tty.setraw(theirs)
    subprocess.run(command, input=read("stdin"), stdout=subprocess.DEVNULL, stderr=theirs)
    os.close(theirs)
    said = b""
    while True:
        try:
            more = os.read(ours, 4096)
        except OSError:
            break
        said += more
    os.close(ours)
    print(f"== {name}", flush=True)
    sys.stdout.buffer.write(said)
    sys.stdout.buffer.flush()
