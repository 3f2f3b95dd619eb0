"""Workbooks on which the reader was wrong once, or that no other case has: codes as their cells show them, hidden
sheets, digits of other scripts, styles of .ods, files of columns, exports. A case is as in `cases`."""
from typing import Any

from cases import (ADA, ADA_LINE, ARRANGEMENTS, BO, BO_LINE, CANDIDATES, HALLS, OPENINGS, PAPERS, SESSIONS,
                   candidates, sheet)
from harder import TWO_LINES, TWO_PAPERS, own_sheet, row_xml
from rawbook import DATE, TIME, ods, ods_row, xlsx, zipped

CASES: list[dict[str, Any]] = []
A = {"candidates": [ADA_LINE]}


def case(name: str, data: bytes, status: int = 0, files: dict[str, list[str]] | None = None, suffix: str = "xlsx",
         **expected: Any) -> None:
    CASES.append({"name": f"further-{name}", "data": data, "suffix": suffix,
                  "expected": {"status": status, "files": files or {}, **expected}})


def table(name: str, *rows: str, more: str = "", columns: str = "") -> str:
    return f'<table:table table:name="{name}"{more}>{columns}{"".join(rows)}</table:table>'


def cell(attributes: str, *paragraphs: str) -> str:
    inside = "".join(f"<text:p>{text}</text:p>" for text in paragraphs)
    return f"<table:table-cell {attributes}>{inside}</table:table-cell>"


def ods_case(kind: str, header: list[str], name: str, *rows: str, status: int = 0,
             files: dict[str, list[str]] | None = None, styles: str = "", columns: str = "", **expected: Any) -> None:
    book = ods(table(kind, ods_row(*header), *rows, columns=columns), styles)
    case(f"ods-{name}", book, status, files, "ods", **expected)


def in_candidates(name: str, *rows: str, **more: Any) -> None:
    ods_case("Candidates", CANDIDATES, name, *rows, **more)


def in_sessions(name: str, *rows: str, **more: Any) -> None:
    ods_case("Sessions", SESSIONS, name, *rows, **more)


def in_openings(name: str, *cells: str, **more: Any) -> None:
    ods_case("Openings", OPENINGS, name, ods_row(*cells), **more)


in_candidates("column-hidden-behind-two", ods_row(*ADA), files=A, told=[["Candidates!C1", "column C is hidden; it is read"], ["", "1 note"]],
     columns='<table:table-column table:number-columns-repeated="2"/><table:table-column table:visibility="collapse"/>')
case("hidden-by-header", xlsx(candidates(ADA), sheet("Data", SESSIONS, ["S1", "2027-06-01", "09:00"],
     state="hidden")), 1, only=True, mistakes=[["Data", "hidden"]])
case("hidden-other-by-header", xlsx(sheet("x", CANDIDATES, ADA), sheet("Candidates", CANDIDATES, BO,
     state="veryHidden")), files={"candidates": [ADA_LINE]}, told=[["Candidates", "hidden"]])
case("paper-by-format-sheet", xlsx(sheet("Papers", PAPERS, [("n", "7", "000"), "Maths", "S1", 90, "-"]),
     sheet("007", ["number", "name"], ["0000001", "Ada"])), files={"papers":["007,Maths,S1,90,-"],
     "entries":["0000001,007"]})
case("paper-dash-sheet", xlsx(sheet("Papers", PAPERS, ["MA\u20131", "Maths", "S1", 90, "-"]), sheet("MA-1",
     ["number", "name"], ["0000001", "Ada"])), files={"papers":["MA-1,Maths,S1,90,-"], "entries":["0000001,MA-1"]})
case("paper-dash-sheet-name", xlsx(sheet("Papers", PAPERS, ["MA-1", "Maths", "S1", 90, "-"]), sheet("MA\u20131",
     ["number", "name"], ["0000001", "Ada"])), files={"papers":["MA-1,Maths,S1,90,-"], "entries":["0000001,MA-1"]})
case("paper-by-format-header", xlsx(sheet("Papers", PAPERS, [("n", "7", "000"), "Maths", "S1", 90, "-"]),
     sheet("Entries", ["number", ("n", "7", "000")], ["0000001", "x"])), files={"papers":["007,Maths,S1,90,-"],
     "entries":["0000001,007"]})
case("paper-dash-header", xlsx(sheet("Papers", PAPERS, ["MA-1", "Maths", "S1", 90, "-"]), sheet("Entries",
     ["number", "ma\u20131"], ["0000001", "x"])), files={"papers":["MA-1,Maths,S1,90,-"],
     "entries":["0000001,MA-1"]})
case("paper-header-format-other", xlsx(sheet("Papers", PAPERS, ["7", "Maths", "S1", 90, "-"], ["007", "Maths",
     "S1", 90, "-"]), sheet("Entries", ["number", ("n", "7", "000")], ["0000001", "x"])),
     files={"papers":["7,Maths,S1,90,-", "007,Maths,S1,90,-"], "entries":["0000001,007"]})
case("candidates-crossed-dash", xlsx(TWO_PAPERS, sheet("Candidates", [*CANDIDATES, "MA\u20131"], [*ADA, "x"])), 1,
     only=True, mistakes=[["Candidates!D1", "Entries"]])
case("toml-name-of-two-and-twice", b"number,Forename,forename,Surname,code\n1,Ada,Ida,Lin,CODE0001\n", 1, suffix="csv",
     beside={"columns.toml":'[candidates]\nname = ["Forename", "Surname"]\n'}, args=["--columns", "{here}/columns.toml"], only=True,
     mistakes=[["'further-toml-name-of-two-and-twice'!C1", "columns B, C could all be name"]])
case("toml-code-not-there", "Nr;Name;Kennwort\n17;Ada Lin;CODE0001\n".encode(), 1, suffix="csv",
     beside={"columns.toml":'[candidates]\nnumber = "Nr"\nname = "Name"\ncode = "Web code"\n'}, args=["--columns",
     "{here}/columns.toml"], mistakes=[["'further-toml-code-not-there'!1", "Web code"]])
case("toml-sheet-not-there", xlsx(candidates(ADA)), 1,
     beside={"columns.toml":'[candidates]\nsheet = "Pupils of 2027"\n'}, args=["--columns", "{here}/columns.toml"],
     mistakes=[["", "Pupils of 2027"]])
case("toml-sheet-of-two", xlsx(candidates(BO), sheet("Pupils 2027", CANDIDATES, ADA)),
     files={"candidates": [ADA_LINE]}, beside={"columns.toml":'[candidates]\nsheet = "Pupils 2027"\n'},
     args=["--columns", "{here}/columns.toml"], told=[["Candidates", "not read"]])
case("toml-words-requires", xlsx(sheet("Papers", PAPERS, ["MA-1", "Maths", "S1", 90, "Rechner"])),
     files={"papers":["MA-1,Maths,S1,90,computer"]},
     beside={"columns.toml":'[words.requires]\nRechner = "computer"\n'}, args=["--columns", "{here}/columns.toml"],
     told=[["Papers!E2", "computer"]])
case("toml-words-in-capitals", xlsx(sheet("Sessions", SESSIONS, ["S1", "2027-06-01", "Afternoon"]),
     sheet("Openings", OPENINGS, ["S1", "A", 24, "12:00", "GESPERRT"])), files={"sessions": ["S1,2027-06-01,13:30"], "openings": ["S1,A,24,12:00,yes"]},
     beside={"columns.toml":'[words.start]\nafternoon = "13:30"\n[words.reserved]\nGesperrt = "yes"\n'}, args=["--columns", "{here}/columns.toml"],
     told=[["Sessions!C2", "13:30"], ["Openings!E2", "yes"]])
case("other-digits-by-format", xlsx(candidates([("n", "17", "[$-2000401]0000000"), "Ada", "CODE0001"], [("n", "18",
     "[DBNum1][$-804]General"), "Bo", "CODE0002"], [("n", "19", "[$-1010409]0000000"), "Cy", "CODE0003"])), 1,
     only=True, mistakes=[["Candidates!A2"], ["Candidates!A3"], ["Candidates!A4"]])
case("engineering", xlsx(candidates([("n", "1200000", "##0.0E+0"), "Ada", "CODE0001"])), 1, only=True,
     mistakes=[["Candidates!A2"]])
case("name-line-separators", xlsx(candidates(["0000001", "Ada\u2028Lin", "CODE0001"], ["0000002", "Bo\u0085Berg",
     "CODE0002"], ["0000003", "Cy\u000bDahl".replace("\u000b", "_x000B_"), "CODE0003"])), 1, only=True,
     mistakes=[["Candidates!B2", "line end"], ["Candidates!B3", "line end"], ["Candidates!B4"]])
case("name-half-letters", xlsx(candidates(["0000001", "Ada_xD800_", "CODE0001"])), 1, only=True,
     mistakes=[["Candidates!B2"]])
case("name-pairs", xlsx(candidates(["0000001", "Al_xD83D__xDE00_", "CODE0001"])),
     files={"candidates": ["0000001,Al\U0001f600,CODE0001"]})
case("header-half-letters", xlsx(sheet("Candidates", [*CANDIDATES, "x_xD800_y"], [*ADA, "1"])),
     files={"candidates": [ADA_LINE]}, told=[["Candidates!D1", "not read"]])
case("extra-one-text", b"number,needs,extra\n0000001,-,1\n0000002,-,01\n0000003,-,1.0\n", suffix="csv",
     files={"arrangements": [f"000000{n},-,1" for n in range(1, 4)]},
     told=[[f"'further-extra-one-text'!C{n}", "1 percent"] for n in range(2, 5)])
case("amounts-of-other-kinds", xlsx(sheet("Sessions", SESSIONS, ["S1", 7.5, ("n", "46539", DATE)], ["S2",
     "2027-06-02 (Wed)", "2027-06-02"], ["S3", ("n", "0.375", TIME), "9:00"], ["S4", "2027-06-04 09:00", "9:00"]),
     sheet("Openings", OPENINGS, ["S1", "A", ("n", "0.5", TIME), "12:00", "no"], ["S1", "B", ("n", "0.5", "0%"),
     "12:00", "no"])), 1, only=True,
     mistakes=[["Sessions!B2", "a date as"], ["Sessions!C2", "is a date, not a time"], ["Sessions!B3", "a date as"],
     ["Sessions!C3", "is a date, not a time"], ["Sessions!B4", "made a time"], ["Sessions!B5", "a time too, 09:00"],
     ["Openings!C2", "made a time"], ["Openings!C3", "a percentage"]])
case("extra-hundred", xlsx(sheet("Arrangements", ARRANGEMENTS, ["0000001", "-", ("n", "1", "0%")], ["0000002", "-",
     "100 %"], ["0000003", "-", ("n", "0", "0%")], ["0000004", "-", ("n", "-0.25", "0%")])), 1, only=True,
     mistakes=[["Arrangements!C5"]])
case("features-cr", xlsx(sheet("Halls", HALLS, ["A", "Hall A", "screen_x000D_reader"], ["B", "Hall B",
     "Screen AND Quiet"], ["C", "Hall C", "None"], ["D", "Hall D", "step-free;screen/reader|quiet & computer"])),
     files={"halls":["A,Hall A,screen+reader", "B,Hall B,screen+quiet", "C,Hall C,-",
     "D,Hall D,step-free+screen+reader+computer+quiet"]})
case("features-both", xlsx(sheet("Halls", [*HALLS, "screen"], ["A", "Hall A", "quiet", "x"])), 1,
     mistakes=[["Halls!D1", "screen"]])
case("features-cross-twice", xlsx(sheet("Halls", ["hall", "title", "screen", "Screen"], ["A", "Hall A", "x",
     None])), 1, mistakes=[["Halls!D1", "screen"]])
case("called-si", xlsx(TWO_PAPERS, sheet("Entries", ["number", "name", "MA-1"], ["0000001", "Si", "x"])),
     files={"papers":TWO_LINES, "entries":["0000001,MA-1"]})
case("until-day-of-session", xlsx(sheet("Sessions", SESSIONS, ["S1", "2027-06-01", "09:00"]), sheet("Openings",
     OPENINGS, ["S1", "A", 10, ("n", "46539.5", "dd/mm/yyyy hh:mm"), "no"], ["S1", "B", 10, ("n", "46540.5",
     "dd/mm/yyyy hh:mm"), "no"])), 1, only=True, mistakes=[["Openings!D3", "2027-06-02"]])
case("csv-pk", "PK;name;code\n17;Ada Lin;CODE0001\n".encode(), suffix="csv",
     files={"candidates": ["0000017,Ada Lin,CODE0001"]}, beside={"columns.toml":'[candidates]\nnumber = "PK"\n'},
     args=["--columns", "{here}/columns.toml"])
case("csv-commas-in-names", "number;name;code\n17;Lin, Ada, Jr.;CODE0001\n18;Berg, Bo;CODE0002\n".encode(),
     suffix="csv", files={"candidates": ['0000017,"Lin, Ada, Jr.",CODE0001', '0000018,"Berg, Bo",CODE0002']})
case("csv-commas-in-quotes", 'number;name;code\n17;"Lin, Ada, Jr., of, x";CODE0001\n'.encode(), suffix="csv",
     files={"candidates": ['0000017,"Lin, Ada, Jr., of, x",CODE0001']})
case("csv-title-line", 'List of candidates, as of 1 May, 2027, draft, v2\n\nnumber;name;code\n'
     '17;Ada;CODE0001\n'.encode(), suffix="csv", files={"candidates": ['0000017,Ada,CODE0001']})
case("two-kinds-in-one-csv",
     "Nr,Vorname,Nachname,Kurs,Kennung\n1,Ada,Lin,ma-1,CODE0001\n1,Ada,Lin,FR,CODE0001\n".encode(), suffix="csv",
     files={"candidates": [ADA_LINE, ADA_LINE], "entries":["0000001,MA-1", "0000001,FR"]},
     beside={"columns.toml":'[candidates]\nnumber = "Nr"\nname = ["Vorname","Nachname"]\ncode = "Kennung"\n'
     '[entries]\nnumber="Nr"\npaper="Kurs"\n'}, args=["--columns", "{here}/columns.toml"],
     told=[["'further-two-kinds-in-one-csv'!D2", "MA-1"]])
case("csv-utf16-bom-be", b"\xfe\xff"+"number;name;code\r\n17;Ad\u00e9;CODE0001\r\n".encode("utf-16-be"),
     suffix="csv", files={"candidates": ['0000017,Ad\u00e9,CODE0001']})
case("csv-cp1252", "number;name;code\n17;Ren\u00e9 \u0152;CODE0001\n".encode("cp1252"), suffix="csv",
     args=["--encoding", "cp1252"], files={"candidates": ['0000017,Ren\u00e9 \u0152,CODE0001']})
case("csv-no-encoding", b"number;name;code\n", 1, suffix="csv", args=["--encoding", "rot13"],
     stderr=["encoding"])
case("csv-short-rows", b"number,name,code\n17,Ada\n", suffix="csv", files={"candidates": ['0000017,Ada,']},
     told=[["'further-csv-short-rows'!C2", "code"]])
case("csv-long-rows", b"number,name,code\n17,Ada,CODE0001,left\n", suffix="csv",
     files={"candidates": ['0000017,Ada,CODE0001']}, told=[["'further-csv-long-rows'!D2", "no header"]])
case("number-underscore", own_sheet(row_xml(1, *CANDIDATES)+
     '<row r="2"><c r="A2"><v>1_7</v></c><c r="B2" t="inlineStr"><is><t>Ada Lin</t></is>'
     '</c><c r="C2" t="inlineStr"><is><t>CODE0001</t></is></c></row>'), 1)
case("number-wide", own_sheet(row_xml(1, *CANDIDATES)+
     '<row r="2"><c r="A2"><v>\uff11\uff17</v></c><c r="B2" t="inlineStr"><is><t>Ada '
     'Lin</t></is></c><c r="C2" t="inlineStr"><is><t>CODE0001</t></is></c></row>'), 1)
case("unknown-type", xlsx(candidates(["0000001", ("raw", '<c r="{ref}" t="q"><v>Ada</v></c>'), "CODE0001"])), 1)
case("totals-words", xlsx(candidates(ADA, ["Total:", None, None], ["Sum", None, None], ["Grand Total", "2", None],
     ["Anzahl", 2, None], ["Gesamt: 2", None, None])), files={"candidates": [ADA_LINE]})
case("dates-words-german", xlsx(sheet("Sessions", SESSIONS, ["S1", "Dienstag, 1. Juni 2027", "09:00"], ["S2",
     "Mi 2. Juni 2027", "09:00"], ["S3", "1. Dez. 2027", "09:00"], ["S4", "4-Okt-2027", "09:00"])),
     files={"sessions":["S1,2027-06-01,09:00", "S2,2027-06-02,09:00", "S3,2027-12-01,09:00", "S4,2027-10-04,09:00"]})
case("dates-weekday-german-wrong", xlsx(sheet("Sessions", SESSIONS, ["S1", "Mittwoch, 1. Juni 2027", "09:00"])), 1,
     only=True, mistakes=[["Sessions!B2", "Tuesday"]])
case("rows-above-the-header", xlsx(sheet("Halls", ["AULA", "Aula", "-"], ["GYM", "Gym", "quiet"], HALLS, ["LAB", "Lab", "-"])), 1, only=True,
     mistakes=[["Halls!1", "above the header in row 3"], ["Halls!2", "above the header in row 3"]])
case("table-above-a-larger-one", xlsx(sheet("Candidates", CANDIDATES[:2], ADA[:2], [], CANDIDATES, BO)), 1, only=True,
     mistakes=[["Candidates!1", "above the header in row 4"], ["Candidates!2", "above the header in row 4"]])
case("titles-above-the-header", xlsx(sheet("Halls", ["HALLS", "as of May 2027"], [2027, None, "draft"], HALLS, ["LAB", "Lab", "-"])),
     files={"halls": ["LAB,Lab,-"]}, told=[["Halls!3", "what stands above it is not read"]])
case("csv-errors-and-hours", b"paper,title,session,minutes,requires\nMA-1,#N/A,S1,2,-\nMA-2,Maths,S1,90,-\n", suffix="csv",
     files={"papers": ["MA-1,#N/A,S1,2,-", "MA-2,Maths,S1,90,-"]},
     told=[["'further-csv-errors-and-hours'!B2", "an error"], ["'further-csv-errors-and-hours'!D2", "hours"]])
case("toml-cannot-say-which", xlsx(sheet("Candidates", ["number", "Name", "name", "code"], ["0000001", "Ada", "Bo", "CODE0001"])), 1, only=True,
     beside={"columns.toml": '[candidates]\nname = "Name"\n'}, args=["--columns", "{here}/columns.toml"],
     mistakes=[["Candidates!C1", "columns B, C could all be name: keep one header, and call the others otherwise"]])
case("toml-can-say-which", xlsx(sheet("Candidates", ["number", "Full name", "name", "code"], ["0000001", "Ada", "Bo", "CODE0001"])), 1, only=True,
     mistakes=[["Candidates!C1", "columns B, C could all be name: keep one header, or say which in a file of columns"]])
case("csv-comma-in-a-name", b"number,name\n0000001,Lin, Ada\n0000002,Berg, Bo\n", suffix="csv", files={"candidates": ["0000001,Lin,", "0000002,Berg,"]},
     told=[["'further-csv-comma-in-a-name'!C2", "the column with no header is not read, such as ' Ada'"]])
RAISED = [("MA-1", ""), ("2", '<vertAlign val="superscript"/>')]
case("raised-letters", xlsx(sheet("Papers", PAPERS, ["MA-1", "Maths", "S1", 90, "-"], ["MA-12", ("rich", [("H", '<vertAlign val="baseline"/>'), ("O", "")]), "S1", 90, "-"]),
     sheet("Entries", ["number", "paper"], ["0000001", ("rich", RAISED)])), 1, only=True, mistakes=[["Entries!B2", "higher or lower"]])
in_candidates("raised-letters", ods_row(*ADA), ods_row("0000002", cell('office:value-type="string"', 'Bo<text:span text:style-name="T1">1</text:span>'), "CODE0002"),
     ods_row("0000003", cell('office:value-type="string"', 'Cy<text:span text:style-name="T2">1</text:span>'), "CODE0003"), status=1, only=True,
     styles='<style:style style:name="T1" style:family="text"><style:text-properties style:text-position="super 58%"/></style:style>'
     '<style:style style:name="T2" style:family="text"><style:text-properties style:text-position="0% 100%"/></style:style>',
     mistakes=[["Candidates!B3", "higher or lower"]])
case("code-like-day", xlsx(sheet("Halls", ["hall", "title", "features"], ["1MAR", "A", "-"]), sheet("Sessions",
     SESSIONS, ["1-MAR", "2027-06-01", "09:00"], ["MAR-27", "2027-06-02", "09:00"], ["3-okt", "2027-06-03",
     "09:00"])), files={"halls":["1MAR,A,-"], "sessions":["1-MAR,2027-06-01,09:00", "MAR-27,2027-06-02,09:00",
     "3-OKT,2027-06-03,09:00"]}, told=[["Sessions!A2", "MAR-1"], ["Sessions!A3", "MAR-1"], ["Sessions!A4", "MAR-1"]])
case("formula-shared", own_sheet(row_xml(1, *CANDIDATES)+
     '<row r="2"><c r="A2"><f t="shared" ref="A2:A3" si="0">ROW()</f><v>1</v></c><c '
     'r="B2" t="inlineStr"><is><t>Ada Lin</t></is></c><c r="C2" t="inlineStr"><is>'
     '<t>CODE0001</t></is></c></row><row r="3"><c r="A3"><f t="shared" si="0"/><v>2</v>'
     '</c><c r="B3" t="inlineStr"><is><t>Bo Berg</t></is></c><c r="C3" t="inlineStr"><is>'
     '<t>CODE0002</t></is></c></row>'), files={"candidates": [ADA_LINE, BO_LINE]}, told=[["Candidates!A2",
     "formula"], ["Candidates!A3", "0000002"]])
case("formula-shared-no-result", own_sheet(row_xml(1, *CANDIDATES)+
     '<row r="2"><c r="A2"><f t="shared" ref="A2:A3" si="0">ROW()</f><v>1</v></c><c '
     'r="B2" t="inlineStr"><is><t>Ada Lin</t></is></c><c r="C2" t="inlineStr"><is>'
     '<t>CODE0001</t></is></c></row><row r="3"><c r="A3"><f t="shared" si="0"/></c><c '
     'r="B3" t="inlineStr"><is><t>Bo Berg</t></is></c><c r="C3" t="inlineStr"><is>' '<t>CODE0002</t></is></c></row>'),
     1, only=True, mistakes=[["Candidates!A3", "formula"]])
case("formula-in-cross", xlsx(TWO_PAPERS, sheet("Entries", ["number", "MA-1", "FR"], ["0000001", ("f",
     'IF(1,"x","")', "x"), ("f", 'IF(0,"x","")', "")])), files={"papers":TWO_LINES, "entries":["0000001,MA-1"]},
     told=[["Entries!B2", "formula"]])
case("formula-in-cross-pending", xlsx(TWO_PAPERS, sheet("Entries", ["number", "MA-1", "FR"], ["0000001", ("f",
     'IF(1,"x","")', None), "x"])), 1, only=True, mistakes=[["Entries!B2"]])
case("hidden-outline", own_sheet(row_xml(1, *CANDIDATES)+row_xml(2, *ADA,
     attributes=' outlineLevel="1" hidden="true"')+row_xml(3, *BO, attributes=' collapsed="1"')), 1, only=True,
     mistakes=[["Candidates!2", "hidden"]])
case("hidden-columns-wide", own_sheet(row_xml(1, *CANDIDATES)+row_xml(2, *ADA),
     before='<cols><col min="2" max="16384" width="0" customWidth="1"/></cols>'), files={"candidates": [ADA_LINE]},
     told=[["Candidates!B1", "hidden"], ["Candidates!C1", "hidden"]])
case("merged-cross", xlsx(TWO_PAPERS, sheet("Entries", ["number", "MA-1", "FR"], ["0000001", "x", None], ["0000002",
     None, "x"], merge=["B2:B3"])), files={"papers":TWO_LINES, "entries":["0000001,MA-1", "0000002,MA-1",
     "0000002,FR"]}, told=[["Entries!B2", "merged"]])
case("merged-key", xlsx(candidates(ADA, [None, "Bo Berg", "CODE0002"], merge=["A2:A3"])), 1,
     mistakes=[["Candidates!3"]])
case("far-cell", own_sheet(row_xml(1, *CANDIDATES)+row_xml(2, *ADA)+
     '<row r="1048576"><c r="XFD1048576" t="inlineStr"><is><t>x</t></is></c></row>'),
     files={"candidates": [ADA_LINE]}, told=[["Candidates!XFD1048576"]])
case("minutes-forms", xlsx(sheet("Papers", PAPERS, ["A", "A", "S1", "1h30", "-"], ["B", "B", "S1",
     "1 hour 30 minutes", "-"], ["C", "C", "S1", "90'", "-"], ["D", "D", "S1", "2 Std.", "-"], ["E", "E", "S1", ("n",
     "0.0625", "[m]"), "-"], ["F", "F", "S1", ("n", "90", '0" min"'), "-"], ["G", "G", "S1", "090", "-"], ["H", "H",
     "S1", "90.0", "-"], ["I", "I", "S1", "1:30:00", "-"])), files={"papers":["A,A,S1,90,-", "B,B,S1,90,-",
     "C,C,S1,90,-", "D,D,S1,120,-", "E,E,S1,90,-", "F,F,S1,90,-", "G,G,S1,90,-", "H,H,S1,90,-", "I,I,S1,90,-"]})
case("minutes-bad", xlsx(sheet("Papers", PAPERS, ["A", "A", "S1", "1,5", "-"], ["B", "B", "S1", "601", "-"], ["C",
     "C", "S1", ("n", "90", "0%"), "-"], ["D", "D", "S1", ("n", "90", DATE), "-"], ["E", "E", "S1", "ninety", "-"],
     ["F", "F", "S1", ("n", "90.5", "0"), "-"], ["G", "G", "S1", "\u0661\u0660", "-"], ["H", "H", "S1", -90, "-"],
     ["I", "I", "S1", ("b", True), "-"])), 1, only=True, mistakes=[[f"Papers!D{n}"] for n in range(2, 11)])
case("times-pm", xlsx(sheet("Sessions", SESSIONS, ["S1", "2027-06-01", "12:00 pm"], ["S2", "2027-06-02", "12:30 AM"],
     ["S3", "2027-06-03", "9 a.m."], ["S4", "2027-06-04", "1.30pm"], ["S5", "2027-06-05", "13:00 pm"], ["S6",
     "2027-06-06", "9:30:00 PM"], ["S7", "2027-06-07", "9:30:15 PM"])), 1, only=True,
     mistakes=[["Sessions!C6"], ["Sessions!C8", "seconds"]], told=[["Sessions!C2", "12:00"], ["Sessions!C3", "00:30"],
     ["Sessions!C4", "09:00"], ["Sessions!C5", "13:30"], ["Sessions!C7", "21:30"]])
case("times-numbers", xlsx(sheet("Sessions", SESSIONS, ["S1", "2027-06-01", 930], ["S2", "2027-06-02", ("n", "930",
     "0000")], ["S3", "2027-06-03", ("n", "930", '0":"00')], ["S4", "2027-06-04", ("n", "9.3", "0.00")], ["S5",
     "2027-06-05", "9,30"], ["S6", "2027-06-06", "9:00:30"], ["S7", "2027-06-07", "24:00"])), 1, only=True,
     mistakes=[[f"Sessions!C{n}"] for n in range(2, 9)])
case("until-midnight", xlsx(sheet("Openings", OPENINGS, ["S1", "A", 10, "12 am", "no"], ["S1", "B", 10, ("n",
     "46540", DATE+" hh:mm"), "no"], ["S1", "C", 10, ("n", "0", TIME), "no"], ["S1", "D", 10, ("n", "0", "General"),
     "no"], ["S1", "E", 10, "0:00", "no"])), 1, only=True, mistakes=[[f"Openings!D{n}"] for n in range(2, 6)],
     told=[["Openings!D6", "00:00"]])
case("start-day-of-session", xlsx(sheet("Sessions", SESSIONS, ["S1", ("n", "46539", "yyyy-mm-dd"), ("n", "46539.375",
     "yyyy-mm-dd hh:mm")], ["S2", "2027-06-02", ("n", "46539.375", "yyyy-mm-dd hh:mm")], ["S3", "2027-06-03",
     "2027-06-03 09:00"], ["S4", "2027-06-04", "2027-06-03 09:00"])), 1, only=True, mistakes=[["Sessions!C3"],
     ["Sessions!C5"]])
case("dates-separators", xlsx(sheet("Sessions", SESSIONS, ["S1", "13-06-2027", "09:00"], ["S2", "2027.06.02",
     "09:00"], ["S3", "1-6-2027", "09:00"], ["S4", "2027-6-4", "09:00"], ["S5", "6/13/2027", "09:00"], ["S6",
     "29/02/2027", "09:00"], ["S7", "1999-12-31", "09:00"], ["S8", "2027-06-01 09:00", "09:00"])), 1, only=True,
     mistakes=[["Sessions!B4"], ["Sessions!B5"], ["Sessions!B7"], ["Sessions!B8"], ["Sessions!B9"]],
     told=[["Sessions!B2", "2027-06-13", "Sunday"], ["Sessions!B3", "2027-06-02"], ["Sessions!B6", "2027-06-13"]])
case("dates-mixed-13", xlsx(sheet("Sessions", SESSIONS, ["S1", ("n", "46560", DATE), "09:00"], ["S2", "06/23/2027",
     "09:00"])), files={"sessions":["S1,2027-06-22,09:00", "S2,2027-06-23,09:00"]})
case("reserved-forms", xlsx(sheet("Openings", OPENINGS, ["S1", "A", 10, "12:00", 1], ["S1", "B", 10, "12:00",
     "\u2713"], ["S1", "C", 10, "12:00", ("n", "1", '"TRUE";"TRUE";"FALSE"')], ["S1", "D", 10, "12:00", ("n", "0",
     '"yes";;"no"')], ["S1", "E", 10, "12:00", "Oui"], ["S1", "F", 10, "12:00", "\u00a0"], ["S1", "G", 10, "12:00",
     "\u2013"])), files={"openings":["S1,A,10,12:00,yes", "S1,B,10,12:00,yes", "S1,C,10,12:00,yes",
     "S1,D,10,12:00,no", "S1,E,10,12:00,yes", "S1,F,10,12:00,no", "S1,G,10,12:00,no"]})
case("reserved-bad", xlsx(sheet("Openings", OPENINGS, ["S1", "A", 10, "12:00", 2], ["S1", "B", 10, "12:00", ("n",
     "1", "0%")], ["S1", "C", 10, "12:00", ("e", "#N/A")], ["S1", "D", 10, "12:00", ("n", "46539", DATE)], ["S1", "E",
     10, "12:00", "\u2717"])), 1, only=True, mistakes=[[f"Openings!E{n}"] for n in range(2, 7)])
case("desks-bad", xlsx(sheet("Openings", OPENINGS, ["S1", "A", "24 desks", "12:00", "no"], ["S1", "B", 2.5, "12:00",
     "no"], ["S1", "C", 0, "12:00", "no"], ["S1", "D", 2001, "12:00", "no"], ["S1", "E", ("n", "0.5", TIME), "12:00",
     "no"], ["S1", "F", "1,000", "12:00", "no"], ["S1", "G", None, "12:00", "no"])), 1, only=True,
     mistakes=[[f"Openings!C{n}"] for n in range(2, 9)])
case("codes-bad", xlsx(sheet("Halls", HALLS, [("n", "5", "0%"), "A", "-"], [("n", "1E5", "0E+00"), "B", "-"], ["A_1",
     "C", "-"], ["A/1", "D", "-"], ["\uff21\uff11", "E", "-"], ["A 1", "F", "-"], ["TOOLONG123", "G", "-"],
     ["\u00c41", "H", "-"])), 1, only=True, mistakes=[[f"Halls!A{n}"] for n in range(2, 10)])
case("two-header-rows", xlsx(sheet("Candidates", ["Person", None, "Web"], CANDIDATES, ADA, merge=["A1:B1"])),
     files={"candidates": [ADA_LINE]}, told=[["Candidates!2", "header"]])
case("cells-in-disorder", own_sheet(row_xml(1, *CANDIDATES)+
     '<row r="2"><c r="C2" t="inlineStr"><is><t>CODE0001</t></is></c><c r="A2" '
     't="inlineStr"><is><t>0000001</t></is></c><c r="B2" t="inlineStr"><is><t>Ada Lin</t>' '</is></c></row>'),
     files={"candidates": [ADA_LINE]})
case("header-formula", xlsx(sheet("Candidates", [("f", '"num"&"ber"', "number"), "name", "code"], ADA)),
     files={"candidates": [ADA_LINE]})
in_candidates("group-hidden", '<table:table-row-group table:display="false">'+ods_row(*ADA)+'</table:table-row-group>'+
     ods_row(*BO), status=1, only=True, mistakes=[["Candidates!2", "hidden"]])
in_candidates("covered",  '<table:table-row>'+cell('office:value-type="string" table:number-rows-spanned="2"',
     '0000001')+ cell('office:value-type="string"',  'Ada Lin')+cell('office:value-type="string"',  'CODE0001')+
     '</table:table-row><table:table-row><table:covered-table-cell '
     'office:value-type="string"><text:p>0000009</text:p></table:covered-table-cell>'+
     cell('office:value-type="string"',  'Bo')+cell('office:value-type="string"',  'CODE0002')+'</table:table-row>',
     status=1,  only=True,  mistakes=[["Candidates!A3",  "0000009"]])
in_candidates("columns-repeated", '<table:table-row>'+cell('office:value-type="string"', '0000001')+
     cell('office:value-type="string"', 'Ada Lin')+
     cell('office:value-type="string" table:number-columns-repeated="3"', 'CODE0001')+'</table:table-row>', files=A,
     told=[["Candidates!D2", "no header"]])
in_candidates("currency",  ods_row(cell('office:value-type="currency" office:currency="EUR" office:value="17"',
     '17,00 €'),  "Ada Lin",  "CODE0001"),  files={"candidates": ["0000017,Ada Lin,CODE0001"]},
     told=[["Candidates!A2",  "17,00"]])
in_candidates("german-thousands", ods_row(cell('office:value-type="float" office:value="12345"', '12.345'), "Ada Lin",
     "CODE0001"), files={"candidates": ["0012345,Ada Lin,CODE0001"]}, told=[["Candidates!A2", "12.345"]])
in_candidates("power",  ods_row(cell('office:value-type="float" office:value="100000"',  '1E+05'),  "Ada Lin",
     "CODE0001"),  status=1,  only=True,  mistakes=[["Candidates!A2"]])
in_candidates("hashes",  ods_row(cell('office:value-type="float" office:value="17"',  '###'),  "Ada Lin",
     "CODE0001"),  status=1,  only=True,  mistakes=[["Candidates!A2"]])
in_candidates("bad-date", ods_row("0000001", cell('office:value-type="date" office:date-value="2027-6-1"', '1.6.27'),
     "CODE0001"), status=1, only=True, mistakes=[["Candidates!B2"]])
in_sessions("dates-bad",  ods_row("S1",  cell('office:value-type="date" office:date-value="2027-6-1"',  '1.6.27'),
     "09:00"),  ods_row("S2",  "13/06/2027",  "09:00"),  status=1,  mistakes=[["Sessions!B2"]])
in_sessions("dates-year", ods_row("S1", cell('office:value-type="date" office:date-value="12027-06-01"', '1.6.12027'),
     "09:00"), status=1, only=True, mistakes=[["Sessions!B2"]])
in_sessions("times", ods_row("S1", "2027-06-01", cell('office:value-type="time" office:time-value="PT9H"', '9:00')),
     ods_row("S2", "2027-06-02", cell('office:value-type="time" office:time-value="PT33H00M00S"', '33:00')),
     ods_row("S3", "2027-06-03", cell('office:value-type="time" office:time-value="PT09H00M20S"', '09:00')),
     ods_row("S4", "2027-06-04", cell('office:value-type="time" office:time-value="-PT09H00M00S"', '-9:00')),
     status=1, only=True, mistakes=[["Sessions!C3"], ["Sessions!C4", "seconds"], ["Sessions!C5"]])
in_openings("bool-as-number", "S1", "A", "10", "12:00", cell('office:value-type="float" office:value="1"', 'WAHR'),
     files={"openings":["S1,A,10,12:00,yes"]})
in_candidates("error-german",  ods_row("0000001",
     cell('table:formula="of:=1/0" office:value-type="float" office:value="0"',  '#DIV/0!'),  "CODE0001"),  status=1,
     only=True,  mistakes=[["Candidates!B2",  "#DIV/0!"]])
in_candidates("struck-child-first",  ods_row(cell('table:style-name="a" office:value-type="string"',  '0000001'),
     "Ada Lin",  "CODE0001"),
     styles='<style:style style:name="a" style:family="table-cell" style:parent-style-name="b"/>'
     '<style:style style:name="b" style:family="table-cell"><style:text-properties '
     'style:text-line-through-style="solid"/></style:style>',
     status=1,  only=True,  mistakes=[["Candidates!A2",  "struck"]])
in_candidates("struck-undone", ods_row(cell('table:style-name="a" office:value-type="string"', '0000001'), "Ada Lin",
     "CODE0001"), styles='<style:style style:name="b" style:family="table-cell"><style:text-properties '
     'style:text-line-through-style="solid"/></style:style><style:style style:name="a" '
     'style:family="table-cell" style:parent-style-name="b"><style:text-properties '
     'style:text-line-through-style="none"/></style:style>', files=A, quiet=True)
in_candidates("struck-span", ods_row("0000001", cell('office:value-type="string"',
     'Ada <text:span text:style-name="T1">Lin</text:span>'), "CODE0001"),
     styles='<style:style style:name="T1" style:family="text"><style:text-properties '
     'style:text-line-through-style="solid"/></style:style>', status=1, only=True, mistakes=[["Candidates!B2",
     "struck"]])
in_candidates("struck-same-name-other-family",  ods_row(cell('table:style-name="x" office:value-type="string"',
     '0000001'),  "Ada Lin",  "CODE0001"),
     styles='<style:style style:name="x" style:family="text"><style:text-properties '
     'style:text-line-through-style="solid"/></style:style><style:style style:name="x" ' 'style:family="table-cell"/>',
     files=A,  quiet=True)
in_candidates("two-paragraphs",  ods_row("0000001",  cell('office:value-type="string"',  'Ada',  'Lin'),  "CODE0001"),
     status=1,  only=True,  mistakes=[["Candidates!B2",  "line end"]])
case("ods-hidden-sheet",  ods(table("Candidates",  ods_row(*CANDIDATES),  ods_row(*ADA))+table("Sessions",
     ods_row(*SESSIONS),  ods_row("S1",  "2027-06-01",  "09:00"),  more=' table:style-name="ta"'),
     '<style:style style:name="ta" style:family="table"><style:table-properties '
     'table:display="false"/></style:style>'),
     1,  suffix="ods",  only=True,  mistakes=[["Sessions",  "hidden"]])
case("path-in-zip", xlsx(candidates(ADA), parts={"../../evil.xml":"<x/>", "/abs.xml":"<x/>"}), files=A)
case("password-flag", (lambda d: d.replace(b"PK\x03\x04\x14\x00\x00\x00",
     b"PK\x03\x04\x14\x00\x01\x00").replace(b"PK\x01\x02\x14\x03\x14\x00\x00\x00",
     b"PK\x01\x02\x14\x03\x14\x00\x01\x00"))(xlsx(candidates(ADA))), 1, stderr=["password"])
case("soft-hyphens", xlsx(candidates(["00000\u00ad01", "Ada\u00ad Lin", "CODE\u00ad0001"])), files=A,
     told=[["Candidates!A2", "invisible"]])
case("number-forms", xlsx(candidates(["+17", "A", "CODE0001"], ["17,0", "B", "CODE0002"], ["1 7", "C", "CODE0003"],
     ["\u0661\u0667", "D", "CODE0004"], ["12.345", "E", "CODE0005"], ["1'234'567", "F", "CODE0006"], ["00000017", "G",
     "CODE0007"], ["17-", "H", "CODE0008"], ["\u22124", "I", "CODE0009"], ["17 000", "J", "CODE0010"])), 1, only=True,
     mistakes=[[f"Candidates!A{n}"] for n in range(2, 12)])
case("code-access", xlsx(candidates(["0000001", "A", "code0001"], ["0000002", "B", "SHORT"], ["0000003", "C",
     "CODE 0003"], ["0000004", "D", 12345678], ["0000005", "E", ("n", "46539", DATE)])), 1, only=True,
     mistakes=[["Candidates!C3"], ["Candidates!C4"], ["Candidates!C6"]], told=[["Candidates!C2", "CODE0001"],
     ["Candidates!C5", "number"]])
case("names-of-bytes", xlsx(candidates(["0000001", 40*"o\u0308", "CODE0001"], ["0000002", 27*"\u6f22", "CODE0002"])),
     1, only=True, mistakes=[["Candidates!B3", "81"]], told=[["Candidates!B2", "accents"]])
case("name-number", xlsx(candidates(["0000001", 17, "CODE0001"], ["0000002", ("n", "17", "000"), "CODE0002"])),
     files={"candidates": ["0000001,17,CODE0001", "0000002,017,CODE0002"]},
     told=[["Candidates!B2", "number"], ["Candidates!B3", "number"]])
case("zip-prefix", b"junk"+xlsx(candidates(ADA)), 1)
case("docx",
     zipped({"[Content_Types].xml":"<Types xmlns='http://schemas.openxmlformats.org/package/2006/content-types'/>",
     "_rels/.rels":"<Relationships xmlns='http://schemas.openxmlformats.org/package/2006/relationships'/>",
     "word/document.xml":"<x/>"}), 1, suffix="docx")
in_candidates("struck-column", ods_row(*ADA), columns='<table:table-column table:default-cell-style-name="gone"/>',
     styles='<style:style style:name="gone" style:family="table-cell"><style:text-properties '
     'style:text-line-through-type="double"/></style:style>', status=1,
     mistakes=[["Candidates!A2", "struck"]])
case("text-not-there-is-named",  xlsx(candidates(["0000001",  ("raw",  '<c r="{ref}" t="s"><v>999</v></c>'),
     "CODE0001"])),  1,  stderr=["a cell refers to a text that is not there"])
case("dates-by-odd-formats",  xlsx(sheet("Sessions",  SESSIONS,  ["S1",  ("n",  "46539",  "mmmmm"),  ("n",  "0.375",
     "h:mm a/p")],  ["S2",  ("n",  "46540",  "[$-407]d. mmmm yyyy"),  ("n",  "0.375",  "h:mm am/pm")],  ["S3",  ("n",
     "46541",  "[$-D07041E]d/m/yyyy"),  ("n",  "0.375",  'h" Uhr"')])),  files={"sessions": ["S1,2027-06-01,09:00",
     "S2,2027-06-02,09:00",  "S3,2027-06-03,09:00"]},  told=[["Sessions!C2",  "a true time"],  ["Sessions!B2",
     "a true date",  "Tuesday"],  ["Sessions!B3",  "a true date"],  ["Sessions!B4",  "a true date"],  ["Sessions!C3",
     "a true time", "became 09:00"],  ["Sessions!C4",  "a true time"]])
case("marks-of-no-width", xlsx(candidates(["0000001", "Ada\u2063 Lin\u180e", "CODE\u20650001"])), files=A,
     told=[["Candidates!B2", "invisible"], ["Candidates!C2", "invisible"]])
case("ods-links-to-other-programs", ods(table("Candidates", ods_row(*CANDIDATES), ods_row(*ADA))
     + f'<table:dde-links><table:dde-link>{table("kept", ods_row(*CANDIDATES), ods_row(*BO))}</table:dde-link>'
     "</table:dde-links>"), files=A, suffix="ods", quiet=True)
case("struck-feature-header", xlsx(sheet("Halls", ["hall", "title", ("strike", "computer")], ["GYM", "Gym", "x"])), 1,
     only=True, mistakes=[["Halls!C1", "struck"]])
case("csv-field-without-end", b'number,name,code\n0000001,"' + b"x" * 4_300_000, 1, suffix="csv",
     stderr=["is a quote not closed?"])
PAPER_ALWAYS = {"args": ["--columns", "{here}/columns.toml"],
                "beside": {"columns.toml": '[papers]\npaper = { always = "MA-1" }\n[entries]\npaper = { always = "MA-1" }\n'}}
case("columns-one-paper", xlsx(sheet("Papers", PAPERS[1:], ["Maths", "S1", 90, "-"]), sheet("Entries", ["number"],
     ["0000001"])), files={"papers": ["MA-1,Maths,S1,90,-"], "entries": ["0000001,MA-1"]}, **PAPER_ALWAYS)
case("total-beside-no-number", xlsx(candidates(ADA, [None, "Total", None], BO)), files={"candidates": [ADA_LINE, BO_LINE]},
     told=[["Candidates!3", "total"]])
case("row-of-another", xlsx(candidates(ADA, [ADA[0], "Another", ADA[2]])), 1, only=True,
     mistakes=[["Candidates!3", "Candidates!2 has the same key"]])
case("times-shown-by-halves", xlsx(sheet("Sessions", SESSIONS, ["S1", "2027-06-01", ("n", "0.60416666666666663", "h:mm AM/PM")],
     ["S2", "2027-06-02", ("n", "0.375", "hh:mm AM/PM")])), files={"sessions": ["S1,2027-06-01,14:30", "S2,2027-06-02,09:00"]},
     told=[["Sessions!C2", "a true time", "became 14:30"], ["Sessions!C3", "a true time", "became 09:00"]])
case("second-sheet-empty", xlsx(candidates(ADA), sheet("Pupils", CANDIDATES)), files=A,
     told=[["Pupils", "has no candidates; it is not read"]])
case("first-sheet-empty", xlsx(sheet("Pupils", CANDIDATES), candidates(ADA)), files=A,
     told=[["Pupils", "has no candidates; it is not read"]])
case("header-without-result", xlsx(sheet("Candidates", ["number", "name", ("f", '"code"', None)], ADA)), 1, only=True,
     mistakes=[["Candidates!C1", "its header is a formula that no spreadsheet has computed"]])
case("columns-one-paper-crossed", xlsx(sheet("Papers", PAPERS[1:], ["Maths", "S1", 90, "-"]), sheet("Entries",
     ["number", "MA-1"], ["0000001", "x"])), files={"papers": ["MA-1,Maths,S1,90,-"], "entries": ["0000001,MA-1"]},
     args=["--columns", "{here}/columns.toml"], beside={"columns.toml": '[papers]\npaper = { always = "MA-1" }\n'})
case("iso-times", xlsx(sheet("Sessions", SESSIONS, ["S1", "2027-06-01", ("raw", '<c r="{ref}" t="d"><v>09:00:00</v></c>')],
     ["S2", "2027-06-02", ("raw", '<c r="{ref}" t="d"><v>2027-06-02T13:30:00.000Z</v></c>')])),
     files={"sessions": ["S1,2027-06-01,09:00", "S2,2027-06-02,13:30"]}, told=[["Sessions!C3", "13:30"]])
case("row-number-with-point", own_sheet(row_xml(1, *CANDIDATES) + row_xml(2, *ADA).replace('row r="2"', 'row r="2.0"')),
     files=A, quiet=True)
case("iso-nonsense", xlsx(candidates(["0000001", "Ada Lin", ("raw", '<c r="{ref}" t="d"><v>2027</v></c>')])), 1,
     only=True, mistakes=[["Candidates!C2", "a spreadsheet made a date of it"]])
case("of-two-kinds", xlsx(sheet("Data", [*SESSIONS, *HALLS], ["S1", "2027-06-01", "09:00", "A", "Hall A", "-"])), 1, only=True,
     mistakes=[["Data", "could be sessions or halls"]])
case("called-like-a-total", xlsx(candidates(ADA, [None, "Sum Ting", "CODE0002"], [None, "Sum: 1,024", None])), 1, only=True,
     mistakes=[["Candidates!A3", "number is missing"]], told=[["Candidates!4", "total"]])
case("joined-too-long", xlsx(sheet("Candidates", ["number", "Vorname", "Nachname", "code"], ["0000001", 50 * "a", 50 * "b",
     "CODE0001"])), 1, only=True, mistakes=[["Candidates!B2", "it has 101"]])
in_candidates("string-value", ods_row(cell('office:value-type="string" office:string-value="0000001"'), *ADA[1:]), files=A, quiet=True)
case("columns-that-a-table-numbers", xlsx(TWO_PAPERS, sheet("Entries", ["number", "Paper", "Paper2"], ["0000001", "MA-1", "FR"]),
     sheet("Arrangements", ["number", "needs", "needs.1", "extra"], ["0000001", "quiet", "reader", 25])), 1, only=True,
     mistakes=[["Entries!C1", "columns B, C could all be paper: keep one header"], ["Arrangements!C1", "columns B, C could all be needs"]])
case("columns-that-a-table-numbers-and-a-file-tells-apart", xlsx(TWO_PAPERS, sheet("Entries", ["number", "Paper", "Paper2"], ["0000001", "MA-1", "FR"])),
     files={"papers": TWO_LINES, "entries": ["0000001,MA-1"]}, args=["--columns", "{here}/columns.toml"],
     beside={"columns.toml": '[entries]\npaper = "Paper"\n'}, told=[["Entries!C1", "the column 'Paper2' is not read"]])
case("header-sorted-among-its-rows", xlsx(TWO_PAPERS, sheet("Candidates", ["0000001", "Ada Lin"], CANDIDATES, BO), sheet("Openings",
     ["S1", "A", 10, "12:00"], OPENINGS, ["S2", "A", 10, "12:00", "no"]), sheet("Arrangements", ["0000001", "quiet"], ["0000002", None, 25],
     ARRANGEMENTS), sheet("Entries", ["0000001", "x"], ["number", "MA-1", "FR"], ["0000002", None, "x"])), 1, only=True,
     mistakes=[["Candidates!1", "above the header in row 2"], ["Openings!1", "above the header in row 2"], ["Arrangements!1", "above the header in row 3"],
               ["Arrangements!2", "above the header in row 3"], ["Entries!1", "above the header in row 2"]])
case("titles-like-codes-and-names", xlsx(sheet("Openings", ["OPENINGS", "2027"], ["S1", "HALLS", None, "May"], OPENINGS, ["S1", "A", 10, "12:00", "no"]),
     sheet("Candidates", ["Form 7", "Ms Lin", "ROOM1234"], CANDIDATES, ADA)), files={"openings": ["S1,A,10,12:00,no"], "candidates": [ADA_LINE]})
NAMED = {"suffix": "csv", "args": ["--encoding", "cp1252"], "files": {"candidates": ["0000001,Zo\u00eb,CODE0001"]}}
for name, text in ("csv-utf-8-whatever-is-named", "number,name,code\n0000001,Zo\u00eb,CODE0001\n".encode()), (
        "csv-with-a-mark-whatever-is-named", '\ufeff"number","name","code"\n"0000001","Zo\u00eb","CODE0001"\n'.encode()):
    case(name, text, told=[["", "0 mistakes, 0 changes, 1 note"]], **NAMED)
case("crosses-below-two-rows-of-headers", xlsx(TWO_PAPERS, sheet("Entries", ["Candidate", None, "Papers"], ["number", "name", "MA-1", "FR"],
     ["0000001", "Ada Lin", "x", None])), files={"papers": TWO_LINES, "entries": ["0000001,MA-1"]}, told=[["Entries!2", "what stands above it is not read"]])
