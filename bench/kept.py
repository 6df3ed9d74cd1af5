"""The figures of bench/figures, written by what measures them: only where the variable MACHINE says what they were measured on, as in
MACHINE='4 processors, nothing else running'. Then a measurement's figures take the place of the last ones."""
import datetime, json, os, pathlib

FIGURES = pathlib.Path(__file__).resolve().parent / "figures"


def keep(subject, rows, machine=os.environ.get("MACHINE")):
    """Puts rows, each as its columns by their names, into the figures of a subject. A row that has the same values as one of the
    file in the columns of the file's `key` is written over it; others are new; what the file has no column for
    is left out. bench/draw_figures makes the page of them."""
    if not machine:
        return
    path = FIGURES / f"{subject}.json"
    figures = json.loads(path.read_text())
    columns, key = figures["columns"], figures["key"]
    for row in rows:
        known = next((values for values in figures["values"] if all(values[columns.index(name)] == row[name] for name in key)), None)
        if known is None:
            known = [None] * len(columns)
            figures["values"].append(known)
        for name, value in row.items():
            if name in columns:
                known[columns.index(name)] = value
    today = datetime.date.today()
    figures |= {"machine": machine, "date": f"{today.day} {today:%B %Y}"}
    path.write_text(written(figures))
    print(f"kept in bench/figures/{subject}.json")


def written(figures):
    """JSON with a line for each row and each panel."""
    lines = []
    for name, value in figures.items():
        if name == "values":
            lines.append(' "values": [\n' + ",\n".join(f"  {told(row)}" for row in value) + "\n ]")
        elif name == "plots":
            lines.append(' "plots": [\n' + ",\n".join(map(written_plot, value)) + "\n ]")
        else:
            lines.append(f' "{name}": {told(value)}')
    return "{\n" + ",\n".join(lines) + "\n}\n"


def written_plot(plot):
    rest = told({name: value for name, value in plot.items() if name != "panels"})[1:-1]
    return f'  {{{rest}, "panels": [\n' + ",\n".join(f"    {told(panel)}" for panel in plot["panels"]) + "\n  ]}"


def told(value):
    return json.dumps(value, ensure_ascii=False)
