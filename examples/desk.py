"""desk.py JUNCTION-FILE [NEW-PLAN-FILE]: does what desk.c does, by the Python module, which looks at the library's release when it is imported."""
import sys


def main(junction_name, plan_name=None):
    import givendra
    with open(junction_name, "rb") as file:
        junction = file.read()
    try:
        plan = givendra.work_out(junction)
        print("cycle", plan.cycle)
        for stream in range(1, givendra.read_junction(junction).streams + 1):
            print(stream, *givendra.green(plan.file, stream))
        if plan_name is not None:
            with open(plan_name, "xb") as file:
                file.write(plan.file)
        givendra.judge(junction, plan.file)
        print("accepted")
        print("intergreen from 1 to 2:", givendra.intergreen(junction, 1, 2), "s")
        print("level of service of stream 1:", givendra.delay(junction, plan.file, 1).level)
    except givendra.Refused as refused:
        print(refused)
        return 1
    return 0


if __name__ == "__main__":
    if len(sys.argv) not in (2, 3):
        print("usage: desk.py JUNCTION-FILE [NEW-PLAN-FILE]", file=sys.stderr)
        sys.exit(2)
    try:
        sys.exit(main(*sys.argv[1:]))
    except (ImportError, OSError) as error:
        print(error, file=sys.stderr)
        sys.exit(2)
