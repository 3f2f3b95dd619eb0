"""Workbooks along the same rules that are harder: formats that show another value, strikes in part, covered cells, other
writers' XML. A case is as in `cases`."""
from typing import Any

from cases import (ADA, ADA_LINE, ARRANGEMENTS, BO, BO_LINE, CANDIDATES, ENTRIES, HALLS, OPENINGS, PAPERS, SESSIONS,
                   candidates, sheet)
from rawbook import DATE, DOC, HEAD, MAIN, SEVEN, TIME, ods, ods_row, text_xml, xlsx, zipped

CASES: list[dict[str, Any]] = []
TWO_PAPERS = sheet("Papers", PAPERS, ["MA-1", "Maths", "S1", 90, "-"], ["FR", "French", "S2", 60, "-"])
TWO_LINES = ["MA-1,Maths,S1,90,-", "FR,French,S2,60,-"]


def case(name: str, data: bytes, status: int = 0, files: dict[str, list[str]] | None = None, suffix: str = "xlsx",
         **expected: Any) -> None:
    CASES.append({"name": f"harder-{name}", "data": data, "suffix": suffix,
                  "expected": {"status": status, "files": files or {}, **expected}})


def sheet_xml(rows: str, more: str = "", before: str = "") -> str:
    return f'{HEAD}<worksheet xmlns="{MAIN}" xmlns:r="{DOC}">{before}<sheetData>{rows}</sheetData>{more}</worksheet>'


def own_sheet(rows: str, more: str = "", before: str = "", **given: Any) -> bytes:
    """A workbook whose one sheet has this XML."""
    return xlsx(candidates(ADA), parts={"xl/worksheets/sheet1.xml": sheet_xml(rows, more, before), **given.pop("parts", {})},
                **given)


def row_xml(number: int, *cells: str, attributes: str = "") -> str:
    inside = "".join(f'<c r="{"ABCDEFG"[place]}{number}" t="inlineStr"><is>{text_xml(cell)}</is></c>'
                     for place, cell in enumerate(cells))
    return f'<row r="{number}"{attributes}>{inside}</row>'


# formats that show another value than the cell holds
case("minutes-with-words", xlsx(sheet("Papers", PAPERS, ["MA-1", "Maths", "S1", ("n", "90", '0 "min"'), "-"],
                                      ["MA-2", "Maths 2", "S1", ("n", "90", "0.00"), "-"])),
     files={"papers": ["MA-1,Maths,S1,90,-", "MA-2,Maths 2,S1,90,-"]}, told=[["Papers!D2", "90 min", "90"], ["Papers!D3", "90.00"]])
case("desks-shown-larger", xlsx(sheet("Openings", OPENINGS, ["S1", "A", ("n", "24", '0"0"'), "12:00", "no"],
                                      ["S1", "B", ("n", "24000", "0,"), "12:00", "no"], ["S1", "C", ("n", "24", "[<30]\"few\";0"), "12:00", "no"],
                                      ["S1", "D", ("n", "24", ";;;"), "12:00", "no"], ["S1", "E", ("n", "24.4", "0"), "12:00", "no"])), 1, only=True,
     mistakes=[["Openings!C2", "240"], ["Openings!C3"], ["Openings!C4"], ["Openings!C5", "shows nothing"], ["Openings!C6"]])
case("codes-by-format", xlsx(sheet("Halls", HALLS, [("n", "7", "000"), "Room 7", "-"], [("n", "101", "0"), "Room 101", "-"])),
     files={"halls": ["007,Room 7,-", "101,Room 101,-"]}, told=[["Halls!A3", "number"]])
case("codes-shown-otherwise", xlsx(sheet("Halls", HALLS, [("n", "101", '"R"0'), "Room 101", "-"], [("n", "101", '"Room "0'), "x", "-"],
                                         [("n", "0.5", "# ?/?"), "Half", "-"], [("n", "101", "#,##0.00"), "x", "-"], [("n", "7", "00-00"), "x", "-"],
                                         [("n", "0.1", "0%"), "x", "-"], [("n", "-4", "0"), "x", "-"], [("n", "5", "[h]:mm"), "x", "-"])), 1,
     mistakes=[["Halls!A2", "R101"], ["Halls!A3"], ["Halls!A4"], ["Halls!A6"], ["Halls!A7"], ["Halls!A8"], ["Halls!A9"]])
case("numbers-by-format", xlsx(candidates([("n", "17", "#0000000"), "Ada Lin", "CODE0001"], [("n", "18", '"No. "0000000'), "Bo Berg", "CODE0002"],
                                          [("n", "19", "[$-409]0000000"), "Cy Dahl", "CODE0003"], [("n", "20", "0000000;-0;;@"), "Di Es", "CODE0004"],
                                          [("n", "21", "0_)"), "Ed Fox", "CODE0005"])),
     files={"candidates": ["0000017,Ada Lin,CODE0001", "0000018,Bo Berg,CODE0002", "0000019,Cy Dahl,CODE0003", "0000020,Di Es,CODE0004",
                           "0000021,Ed Fox,CODE0005"]}, told=[["Candidates!A3", "No. 0000018", "0000018"], ["Candidates!A6", "21"]])
case("numbers-shown-otherwise", xlsx(candidates([("n", "17", "000-0000"), "Ada", "CODE0001"], [("n", "17.2", "0000000"), "Bo", "CODE0002"],
                                                [("n", "18", '0000000"1"'), "Cy", "CODE0003"], [("n", "19", ";;;"), "Di", "CODE0004"],
                                                [("n", "0.0000018", "0000000"), "Ed", "CODE0005"], [("n", "-20", "0000000"), "Flo", "CODE0006"],
                                                [("n", "21", '0000000;;"-"'), "Gus", "CODE0007"], [("n", "22", "DD/MM/YY"), "Hal", "CODE0008"])), 1,
     mistakes=[["Candidates!A3"], ["Candidates!A4", "00000181"], ["Candidates!A5", "shows nothing"], ["Candidates!A6"],
               ["Candidates!A7"], ["Candidates!A9", "date"]])
case("texts-by-format", xlsx(candidates([("t", "0000017", '@" (out)"'), "Ada Lin", "CODE0001"])),
     files={"candidates": ["0000017,Ada Lin,CODE0001"]}, told=[["Candidates!A2", "(out)", "0000017"]])
case("texts-unseen", xlsx(candidates([("t", "0000017", ";;;"), "Ada Lin", "CODE0001"], ["0000018", ("t", "Bo Berg", "0;0;0;"), "CODE0002"])), 1,
     only=True, mistakes=[["Candidates!A2", "shows nothing"], ["Candidates!B3", "shows nothing"]])
case("zeros-unseen", xlsx(sheet("Arrangements", ARRANGEMENTS, ["0000001", "quiet", ("n", "0", "0;-0;;@")], ["0000002", "-", ("n", "0.5", "0%;;")])),
     files={"arrangements": ["0000001,quiet,0", "0000002,-,50"]}, told=[["Arrangements!C3", "50%", "50"]])
case("long-numbers", xlsx(candidates(["0000001", "Ada", 123456789012], ["0000002", "Bo", 12345678901], ["0000003", "Cy", 1234567890123456789])), 1,
     only=True, mistakes=[["Candidates!C2", "E+11"], ["Candidates!C4"]], told=[["Candidates!C3", "number"]])
case("percents", xlsx(sheet("Arrangements", ARRANGEMENTS, ["0000001", "-", ("n", "0.25", "0.00%")], ["0000002", "-", ("n", "0.5", '0" %"')],
                            ["0000003", "-", ("n", "0.333", "0%")], ["0000004", "-", "33,3 %"], ["0000005", "-", ("n", "25", '0" %"')],
                            ["0000006", "-", ".25"])), 1, only=True,
     mistakes=[["Arrangements!C3"], ["Arrangements!C4"], ["Arrangements!C5"], ["Arrangements!C7", "25 percent?"]],
     told=[["Arrangements!C2", "25.00%", "25"], ["Arrangements!C6", "25 %", "25"]])

# dates and times
case("dates-1904", xlsx(sheet("Sessions", SESSIONS, ["S1", ("n", "45077", "d mmmm yyyy"), ("n", "0.5", TIME)],
                              ["S2", ("n", "45078", "mmm yy"), ("n", "45078.375", "yyyy-mm-dd hh:mm")], ["S3", "2027-06-03", ("n", "0.375", "dd/mm/yyyy hh:mm")]),
                        date1904=True),
     files={"sessions": ["S1,2027-06-01,12:00", "S2,2027-06-02,09:00", "S3,2027-06-03,09:00"]},
     told=[["", "1904"], ["Sessions!B2", "2027-06-01", "Tuesday"], ["Sessions!B3", "Wednesday"], ["Sessions!C3", "09:00"]])
case("dates-of-machines", xlsx(sheet("Sessions", SESSIONS, ["S1", ("n", "46539", '[$-F800]dddd\\, mmmm dd\\, yyyy'), ("n", "0.375", "[$-F400]h:mm:ss AM/PM")],
                                     ["S2", ("n", "46540", "yyyy\\-mm\\-dd;@"), ("n", "0.375", "hh\\.mm")],
                                     ["S3", ("n", "46541", 'yyyy"年"m"月"d"日"'), ("n", "1", "[hh]:mm")])), 1, only=True, mistakes=[["Sessions!C4"]],
     told=[["Sessions!B2", "2027-06-01", "Tuesday"], ["Sessions!C3", "a true time", "09:00"], ["Sessions!B4", "2027-06-03"]])
case("dates-out-of-range", xlsx(sheet("Sessions", SESSIONS, ["S1", ("n", "20270601", DATE), "09:00"], ["S2", ("n", "-5", DATE), "09:00"],
                                      ["S3", ("n", "0", DATE), "09:00"], ["S4", ("n", "36000", DATE), "09:00"], ["S5", ("n", "46539.5", DATE), "09:00"],
                                      ["S6", 20271301, "09:00"], ["S7", "2027-02-30", "09:00"], ["S8", ("n", "1e9", DATE), "09:00"])), 1, only=True,
     mistakes=[["Sessions!B2"], ["Sessions!B3"], ["Sessions!B4", "a true time"], ["Sessions!B5"], ["Sessions!B6", "12:00"], ["Sessions!B7"], ["Sessions!B8"],
               ["Sessions!B9"]])
case("dates-turned-two-digits", xlsx(sheet("Sessions", SESSIONS, ["S1", ("n", "46539", DATE), "09:00"], ["S2", "13/06/27", "09:00"],
                                           ["S3", ("n", "46560", DATE), "09:00"])), 1, only=True,
     mistakes=[["Sessions!B2", "true date"], ["Sessions!B3", "two digits"]])
case("dates-in-words", xlsx(sheet("Sessions", SESSIONS, ["S1", "Tue 1 June 2027", "09:00"], ["S2", "June 2nd, 2027", "09:00"], ["S3", "3. Juni 2027", "09:00"],
                                  ["S4", "Mon 4 June 2027", "09:00"], ["S5", "5 juin 2027", "09:00"], ["S6", "June 2027", "09:00"], ["S7", "31 June 2027", "09:00"])), 1,
     only=True, mistakes=[["Sessions!B5", "Friday"], ["Sessions!B6"], ["Sessions!B7"], ["Sessions!B8"]],
     told=[["Sessions!B2", "2027-06-01"], ["Sessions!B3", "2027-06-02"], ["Sessions!B4", "2027-06-03"]])
case("times-of-noise", xlsx(sheet("Sessions", SESSIONS, ["S1", "2027-06-01", ("n", "0.37500000000000006", TIME)], ["S2", "2027-06-02", ("n", "0.3749999999", TIME)],
                                  ["S4", "2027-06-04", "9:00 AM"], ["S5", "2027-06-05", "0930"])),
     files={"sessions": ["S1,2027-06-01,09:00", "S2,2027-06-02,09:00", "S4,2027-06-04,09:00", "S5,2027-06-05,09:30"]},
     told=[["Sessions!C4", "9:00 AM", "09:00"], ["Sessions!C5", "09:30"]])
case("until", xlsx(sheet("Openings", OPENINGS, ["S1", "A", 10, ("n", "1", "[h]:mm"), "no"], ["S1", "B", 10, "24:00", "no"], ["S1", "C", 10, "00:00", "no"],
                         ["S1", "D", 10, ("n", "46539.5", "dd/mm/yyyy hh:mm"), "no"], ["S1", "E", 10, "12:00 am", "no"], ["S1", "F", 10, ("n", "1.5", "[h]:mm"), "no"])), 1,
     only=True, mistakes=[["Openings!D5", "2027-06-01"], ["Openings!D6", "24:00"], ["Openings!D7"]], told=[["Openings!D2", "24:00"], ["Openings!D4", "nobody"]])
case("minutes-of-days", xlsx(sheet("Papers", PAPERS, ["MA-1", "Maths", "S1", ("n", "1.0625", "h:mm"), "-"], ["MA-2", "Maths", "S1", "90:00", "-"],
                                   ["MA-3", "Maths", "S1", ("n", "0.0628", "h:mm"), "-"], ["MA-4", "Maths", "S1", "1 h 75 min", "-"])), 1, only=True,
     mistakes=[["Papers!D2"], ["Papers!D3"], ["Papers!D4", "seconds"], ["Papers!D5"]])

# struck out, in part and by other ways
case("struck-in-part", xlsx(candidates(["0000001", ("rich", [("Ada ", "<strike/>"), ("Lin", "")]), "CODE0001"],
                                       ["0000002", ("raw", '<c r="{ref}" t="inlineStr"><is><r><rPr><strike val="1"/></rPr><t>Bo</t></r><r><t> Berg</t></r></is></c>'), "CODE0002"],
                                       ["0000003", ("rich", [("Cy ", '<strike val="0"/>'), ("Dahl", "")]), "CODE0003"])), 1, only=True,
     mistakes=[["Candidates!B2", "struck"], ["Candidates!B3", "struck"]])
case("struck-header", xlsx(TWO_PAPERS, sheet("Entries", ["number", "MA-1", ("strike", "FR")], ["0000001", "x", "x"])), 1, mistakes=[["Entries!C1", "struck"]])
case("struck-cross", xlsx(TWO_PAPERS, sheet("Entries", ["number", "MA-1", "FR"], ["0000001", "x", ("strike", "x")], ["0000002", None, "x"])), 1, only=True,
     mistakes=[["Entries!C2"]])
case("struck-beside", xlsx(sheet("Candidates", [*CANDIDATES, "remark"], [*ADA, ("strike", "left")])), files={"candidates": [ADA_LINE]}, told=[["Candidates!D2", "struck"]])
STRUCK_STYLES = ('<office:document-styles xmlns:office="urn:oasis:names:tc:opendocument:xmlns:office:1.0" xmlns:style="urn:oasis:names:tc:opendocument:xmlns:style:1.0">'
                 '<office:styles><style:default-style style:family="table-cell"/><style:style style:name="Gone" style:family="table-cell"><style:text-properties '
                 'style:text-line-through-type="single"/></style:style></office:styles></office:document-styles>')
case("ods-struck-named", ods('<table:table table:name="Candidates">' + ods_row(*CANDIDATES) + ods_row(*ADA)
                             + ods_row('<table:table-cell table:style-name="ce1" office:value-type="string"><text:p>0000002</text:p></table:table-cell>', *BO[1:])
                             + "</table:table>", '<style:style style:name="ce1" style:family="table-cell" style:parent-style-name="Gone"/>',
                             {"styles.xml": STRUCK_STYLES}), 1, suffix="ods", only=True, mistakes=[["Candidates!A3", "struck"]])
case("ods-struck-row", ods('<table:table table:name="Candidates">' + ods_row(*CANDIDATES) + ods_row(*ADA, default_cell_style_name="s1") + "</table:table>",
                           '<style:style style:name="s1" style:family="table-cell"><style:text-properties style:text-line-through-style="solid"/></style:style>'), 1,
     suffix="ods", mistakes=[["Candidates!A2", "struck"]])

# merged, covered, hidden
case("covered-values", xlsx(sheet("Openings", OPENINGS, ["S1", "A", 10, "12:00", "no"], ["S2", "B", 5, "12:00", "no"], merge=["A2:A3"])), 1, only=True,
     mistakes=[["Openings!A3", "S2", "A2:A3"]])
case("covered-by-nothing", xlsx(candidates(ADA, [None, "Bo Berg", "CODE0002"], ["0000003", "Cy", "CODE0003"], merge=["A3:A4"])), 1,
     mistakes=[["Candidates!A4", "0000003"], ["Candidates!A3", "missing"]])
case("merged-over-columns", xlsx(candidates(["0000001", None, "CODE0001"], merge=["A2:B2"])), 1, mistakes=[["Candidates!A2", "A2:B2"]])
case("merged-crosses", xlsx(TWO_PAPERS, sheet("Entries", ["number", "MA-1", "FR"], ["0000001", "x", None], ["0000002", None, "x"], ["0000003", None, None], merge=["B2:B3"])),
     files={"papers": TWO_LINES, "entries": ["0000001,MA-1", "0000002,MA-1", "0000002,FR"]}, told=[["Entries!B2", "B2:B3", "2 to 3"]])
case("merged-beside", xlsx(sheet("Candidates", [*CANDIDATES, "form"], [*ADA, "7a"], [*BO, None], merge=["D2:D3"])), files={"candidates": [ADA_LINE, BO_LINE]},
     told=[["", "0 mistakes, 0 changes, 1 note"]])
case("merged-without-end", xlsx(candidates(ADA, BO, merge=["D2:XFD1048576"])), files={"candidates": [ADA_LINE, BO_LINE]}, seconds=60)
case("row-without-height", own_sheet(row_xml(1, *CANDIDATES) + row_xml(2, *ADA) + row_xml(3, *BO, attributes=' ht="0" customHeight="1"')), 1, only=True,
     mistakes=[["Candidates!3", "hidden"]])
case("hidden-left", xlsx(candidates(ADA, BO, hidden_rows=[2])), files={"candidates": [BO_LINE]}, args=["--hidden", "leave"], told=[["Candidates!2", "hidden"]])
case("very-hidden-kind", xlsx(candidates(ADA), sheet("Entries", ENTRIES, ["0000001", "MA-1"], state="veryHidden")), 1, only=True, mistakes=[["Entries", "hidden"]])
case("ods-covered", ods('<table:table table:name="Candidates">' + ods_row(*CANDIDATES)
                        + ods_row('<table:table-cell office:value-type="string" table:number-rows-spanned="2" table:number-columns-spanned="1"><text:p>0000001</text:p></table:table-cell>', *ADA[1:])
                        + ods_row('<table:covered-table-cell office:value-type="string"><text:p>0000002</text:p></table:covered-table-cell>', *BO[1:]) + "</table:table>"), 1,
     suffix="ods", only=True, mistakes=[["Candidates!A3", "0000002"]])

# formulas, totals, crosses
case("formulas-of-texts", xlsx(TWO_PAPERS, sheet("Entries", ["number", "MA-1", "FR"], ["0000001", ("f", 'IF(A2>"","x","")', "x"), ("f", 'IF(1>2,"x","")', "")],
                                                 ["0000002", ("f", "1=1", ("b", True)), ("f", "1=2", ("b", False))])),
     files={"papers": TWO_LINES, "entries": ["0000001,MA-1", "0000002,MA-1"]}, told=[["Entries!B2", "formula"]])
case("formulas-in-crosses", xlsx(TWO_PAPERS, sheet("Entries", ["number", "MA-1", "FR"], ["0000001", ("f", "A1", None), ("f", "A1", ("e", "#N/A"))], ["0000002", "x", None])), 1,
     only=True, mistakes=[["Entries!B2"], ["Entries!C2"]])
case("formulas-shared", own_sheet(row_xml(1, *CANDIDATES) + '<row r="2"><c r="A2"><f t="shared" ref="A2:A3" si="0">ROW()</f><v>2</v></c><c r="B2" t="str"><f>"Ada"</f><v>Ada Lin</v></c>'
                                  '<c r="C2" t="str"><f>1</f><v>CODE0001</v></c></row><row r="3"><c r="A3"><f t="shared" si="0"/><v></v></c>'
                                  '<c r="B3" t="inlineStr"><is><t>Bo</t></is></c><c r="C3" t="inlineStr"><is><t>CODE0002</t></is></c></row>'), 1, only=True,
     mistakes=[["Candidates!A3", "formula"]], told=[["Candidates!A2", "0000002"], ["Candidates!B2", "formula"]])
case("marks", xlsx(TWO_PAPERS, sheet("Entries", ["number", "MA-1", "FR"], ["0000001", "\u2713", "no"], ["0000002", 1, 0], ["0000003", "\u25cf", "o"], ["0000004", 2, "(x)"],
                                     ["0000005", ("n", "1", '"-"'), ("n", "1", ";;;")], ["0000006", ("n", "1", '"x";;'), ("n", "0", '"x";;')], ["0000007", ("n", "1", "0%"), ("n", "1", DATE)])), 1,
     only=True, mistakes=[["Entries!B4"], ["Entries!C4"], ["Entries!B5"], ["Entries!C5"], ["Entries!C6"], ["Entries!B8"], ["Entries!C8"]])
case("marks-of-ones", xlsx(TWO_PAPERS, sheet("Entries", ["number", "MA-1", "FR", "GEO"], ["0000001", 1, None, None], ["0000002", None, 1, 1], ["0000003", 0, 1, 0])), 1, only=True,
     mistakes=[["Entries!D1", "GEO"]])
case("marks-and-counts", xlsx(TWO_PAPERS, sheet("Entries", ["number", "MA-1", "FR", "how many"], ["0000001", 1, None, 1], ["0000002", 1, 1, 2])),
     files={"papers": TWO_LINES, "entries": ["0000001,MA-1", "0000002,MA-1", "0000002,FR"]}, told=[["Entries!D1", "how many", "not read"]])
case("marks-without-header", xlsx(TWO_PAPERS, sheet("Entries", ["number", "MA-1", None, "FR"], ["0000001", "x", "x", None])), 1, only=True, mistakes=[["Entries!C1", "no header"]])
case("paper-twice", xlsx(TWO_PAPERS, sheet("Entries", ["number", "MA-1", "FR", "ma-1"], ["0000001", "x", None, "x"])), 1, mistakes=[["Entries!D1", "B, D could all be MA-1"]])
case("total-between", xlsx(sheet("Openings", OPENINGS, ["S1", "A", 10, "12:00", "no"], ["Total", None, 10, None, None], ["S1", "B", 5, "12:00", "no"])),
     files={"openings": ["S1,A,10,12:00,no", "S1,B,5,12:00,no"]}, told=[["Openings!3", "total"]])
case("total-as-name", xlsx(candidates(["0000001", "Sum Total", "CODE0001"], ["0000002", "Count Total", "CODE0002"])),
     files={"candidates": ["0000001,Sum Total,CODE0001", "0000002,Count Total,CODE0002"]})
case("total-of-crosses", xlsx(TWO_PAPERS, sheet("Entries", ["number", "MA-1", "FR"], ["0000001", "x", None], ["Total", ("f", "COUNTA(B2:B2)", 1), ("f", "COUNTA(C2)", 0)])),
     files={"papers": TWO_LINES, "entries": ["0000001,MA-1"]}, told=[["Entries!3", "total"]])
case("total-below-nothing", xlsx(TWO_PAPERS, sheet("Entries", ["number", "MA-1", "FR"], ["0000001", "x", None], [None, ("f", "SUM(B2)", 1), ("f", "SUM(C2)", 0)])),
     1, only=True, mistakes=[["Entries!A3", "number is missing"]])

case("marks-as-shown", xlsx(TWO_PAPERS, sheet("Entries", ["number", "MA-1", "FR"], ["0000001", ("n", "1", '"-"'), "x"], ["0000002", ("n", "1", '"x"'), None])),
     files={"papers": TWO_LINES, "entries": ["0000001,FR", "0000002,MA-1"]})
case("total-as-code", xlsx(sheet("Openings", OPENINGS, ["S1", "A", 10, "12:00", "no"], ["TOTAL", "A", 10, "12:00", "no"])), 1, only=True,
     mistakes=[["Openings!3", "total"]])
case("crosses-of-candidates", xlsx(TWO_PAPERS, sheet("Candidates", [*CANDIDATES, "MA-1"], [*ADA, "x"])), 1, only=True, mistakes=[["Candidates!D1", "MA-1", "Entries"]])
case("noise-of-numbers", xlsx(sheet("Arrangements", ARRANGEMENTS, ["0000001", "-", ("n", "0.30000000000000004", "0%")])), files={"arrangements": ["0000001,-,30"]},
     told=[["Arrangements!C2", "30%", "30"]])

# names of sheets and headers
case("other-names", xlsx(sheet("Pr\u00fcfungen", ["Pr\u00fcfung", "Bezeichnung", "Termin", "Dauer (min)", "Requirements"], ["MA-1", "Mathe", "S1", 90, "-"]),
                         sheet("R\u00e4ume", ["Raum", "Title", "Ausstattung"], ["A", "Aula", "step-free und screen"]),
                         sheet("Sch\u00fcler", ["Nachname", "Vorname", "Nummer", "PIN"], ["Lin", "Ada", 1, "CODE0001"])),
     files={"papers": ["MA-1,Mathe,S1,90,-"], "halls": ["A,Aula,step-free+screen"], "candidates": [ADA_LINE]},
     told=[["Pr\u00fcfungen!1", "paper, title, session, minutes, requires", "'Dauer (min)'"], ["R\u00e4ume!C2", "step-free+screen"],
           ["Sch\u00fcler!1", "name", "'Vorname' with 'Nachname'"]])
case("headers-in-lines", xlsx(sheet("x", ["Candidate\nNo.", " NAME\u00a0", "Access  Code:"], ADA)), files={"candidates": [ADA_LINE]},
     told=[["x!1", "columns number, code are read from 'candidate\\nno.', 'access  code:'"]])
case("right-to-left", xlsx(candidates(["\u200e0000001", "\u202b\u05d0\u05d3\u05d4 \u05dc\u05d9\u05df\u202c", "CODE0001"], ["0000002", "\u0645\u06cc\u200c\u062e\u0648\u0627\u0647\u0645", "CODE0002"])),
     files={"candidates": ["0000001,\u05d0\u05d3\u05d4 \u05dc\u05d9\u05df,CODE0001", "0000002,\u0645\u06cc\u200c\u062e\u0648\u0627\u0647\u0645,CODE0002"]},
     told=[["Candidates!A2", "invisible"], ["Candidates!B2", "invisible"], ["Candidates!B3", "joiner"]])
case("number-beside-number", xlsx(sheet("Candidates", ["Number", "Candidate No.", "name", "code"], [1, 901, "Ada Lin", "CODE0001"])), 1, mistakes=[["Candidates!B1", "number"]])
case("names-in-parts", xlsx(sheet("Candidates", ["number", "First name", "Middle name", "Last name", "code"], ["0000001", "Ada", "May", "Lin", "CODE0001"])),
     files={"candidates": [ADA_LINE]}, told=[["Candidates!C1", "not read"]])
case("name-in-one-part", xlsx(sheet("Candidates", ["number", "Surname", "code"], ["0000001", "Lin", "CODE0001"])), 1, mistakes=[["Candidates!1", "name"]])
case("sheet-of-no-kind", xlsx(sheet("Data", ENTRIES, ["0000001", "MA-1"]), sheet("List", ["number", "name"], ADA[:2])),
     files={"entries": ["0000001,MA-1"], "candidates": ["0000001,Ada Lin,"]})
case("extra-in-minutes", xlsx(sheet("Arrangements", ["number", "needs", "Extra time (minutes)"], ["0000001", "-", 25])), 1, mistakes=[["Arrangements!1", "extra"]])
case("sheet-per-paper-wrong", xlsx(TWO_PAPERS, sheet("MA-1", ["number", "name"], ["17.5", "Ada"], ["0000002", "Bo"])), 1, only=True, mistakes=[["'MA-1'!A2"]])
case("lists-of-two-forms", xlsx(TWO_PAPERS, sheet("Entries", ENTRIES, ["0000001", "MA-1"]), sheet("FR", ["number"], ["0000002"])), 1, only=True,
     mistakes=[["FR", "both be the entries"]])
case("blank-rows", xlsx(candidates(*[row for number in range(1, 40) for row in ([f"{number:07}", f"Name {number}", f"CODE{number:04}"], [], [None, "\u00a0"])])),
     files={"candidates": [f"{number:07},Name {number},CODE{number:04}" for number in range(1, 40)]}, quiet=True)
case("codes-with-joined-rows", xlsx(sheet("Halls", HALLS, ["A", "Hall A", "screen"], ["A", "Hall A", "quiet"])), 1, mistakes=[["Halls!3", "same key"]])
case("same-row-twice", xlsx(candidates(ADA, ADA)), files={"candidates": [ADA_LINE, ADA_LINE]}, told=[["Candidates!3", "same"]])
case("long-texts", xlsx(candidates(["0000001", 32767 * "x", "CODE0001"], ["0000002", "Bo", 32767 * "A"])), 1, only=True,
     mistakes=[["Candidates!B2", "32,767"], ["Candidates!C3", "32,767"]])

# letters
case("letters-as-numbers", xlsx(candidates(["0000001", "Ada_x000D_Lin", "CODE0001"], ["0000002", ("inline", "Bo_x0009_Berg"), "CODE0002"],
                                           ["0000003", "Cy_x005F_x0041_", "CODE0003"], ["0000004", ("f", "A1", "Di_x000A_"), "CODE0004"],
                                           ["0000005", "E_x0041_d", "CODE0005"])), 1, only=True,
     mistakes=[["Candidates!B2", "line end"], ["Candidates!B3", "tab"]], told=[["Candidates!B5", "spaces"]])
case("spoken-letters", own_sheet(row_xml(1, *CANDIDATES) + '<row r="2"><c r="A2" t="inlineStr"><is><t>0000001</t></is></c><c r="B2" t="inlineStr"><is><t>Ada Lin</t>'
                                 '<rPh sb="0" eb="1"><t>ada</t></rPh></is></c><c r="C2" t="inlineStr"><is><t>CODE0001</t></is></c></row>'),
     files={"candidates": [ADA_LINE]}, quiet=True)

SPOKEN = "".join(f"<si><t>{text}</t><rPh sb='0' eb='1'><t>spoken</t></rPh></si>" for text in [*CANDIDATES, *ADA])
case("spoken-letters-shared", xlsx(candidates(ADA), parts={"xl/sharedStrings.xml": f'{HEAD}<sst xmlns="{MAIN}">{SPOKEN}</sst>'}),
     files={"candidates": [ADA_LINE]}, quiet=True)

# XML of other writers
PREFIXED = sheet_xml(row_xml(1, *CANDIDATES) + row_xml(2, *ADA)).replace("<", "<x:").replace("<x:/", "</x:").replace("<x:?", "<?").replace("xmlns=", "xmlns:x=")
case("prefixes", own_sheet("", parts={"xl/worksheets/sheet1.xml": PREFIXED}), files={"candidates": [ADA_LINE]}, quiet=True)
STRICT = sheet_xml(row_xml(1, *CANDIDATES) + row_xml(2, *ADA)).replace(MAIN, "http://purl.oclc.org/ooxml/spreadsheetml/main")
case("strict", own_sheet("", parts={"xl/worksheets/sheet1.xml": STRICT}), 1, stderr=["Strict"])
case("utf-16", own_sheet("", parts={"xl/worksheets/sheet1.xml": sheet_xml(row_xml(1, *CANDIDATES) + row_xml(2, *ADA)).replace("UTF-8", "UTF-16").encode("utf-16")}),
     files={"candidates": [ADA_LINE]}, quiet=True)
case("rows-in-disorder", own_sheet(row_xml(1, *CANDIDATES) + row_xml(3, *BO) + row_xml(2, *ADA)), files={"candidates": [ADA_LINE, BO_LINE]}, quiet=True)
case("row-twice", own_sheet(row_xml(1, *CANDIDATES) + row_xml(2, *ADA) + row_xml(2, *BO)), 1, stderr=["twice"])
case("text-below-none", xlsx(candidates(["0000001", ("raw", '<c r="{ref}" t="s"><v>-1</v></c>'), "CODE0001"])), 1, stderr=["not there"])
case("sheet-missing", xlsx(candidates(ADA), sheet("Entries", ENTRIES, ["0000001", "MA-1"]), leave_out=["xl/worksheets/sheet2.xml"]), 1, stderr=["missing"])
case("texts-missing", xlsx(candidates(ADA), leave_out=["xl/sharedStrings.xml"]), 1)
case("styles-elsewhere", xlsx(candidates(ADA), parts={"xl/styles2.xml": f'<styleSheet xmlns="{MAIN}"/>'}), 1, stderr=["styles"])
case("style-not-there", xlsx(candidates(["0000001", ("raw", '<c r="{ref}" s="99" t="inlineStr"><is><t>Ada</t></is></c>'), "CODE0001"])), 1, stderr=["broken"])
case("links-without-end", own_sheet(row_xml(1, *CANDIDATES) + row_xml(2, *ADA), '<hyperlinks><hyperlink ref="A1:XFD1048576" location="x"/></hyperlinks>'),
     files={"candidates": [ADA_LINE]}, quiet=True, seconds=60)
case("entity-beside", xlsx(candidates(ADA), parts={"docProps/core.xml": '<!DOCTYPE x [<!ENTITY a "b">]><x>&a;</x>'}), 1, stderr=["document type"])
case("zip-in-zip", zipped({"inner.xlsx": xlsx(candidates(ADA))}), 1, stderr=["no workbook"])
case("binary-form", zipped({"xl/workbook.bin": b"\0", "[Content_Types].xml": "<x/>", "_rels/.rels": "<x/>"}), 1, suffix="xlsb", stderr=[".xlsb"])
case("no-zip", b"PK\3\4" + 400 * b"x", 1, stderr=["broken"])
case("empty-file", b"", 1)

# .ods of other writers
OTHER = ods('<table:table table:name="Arrangements">' + ods_row(*ARRANGEMENTS)
            + ods_row('<table:table-cell office:value-type="float" office:value="17"/>', "-", '<table:table-cell office:value-type="percentage" office:value="0.25"/>')
            + ods_row('<table:table-cell office:value-type="float" office:value="18"><text:p>0000018</text:p></table:table-cell>', "-",
                      '<table:table-cell office:value-type="percentage" office:value="0.5"><text:p>50%</text:p></table:table-cell>') + "</table:table>")
case("ods-without-letters", OTHER, files={"arrangements": ["0000017,-,25", "0000018,-,50"]}, suffix="ods", told=[["Arrangements!A2", "0000017"]])
case("ods-unseen", ods('<table:table table:name="Candidates">' + ods_row(*CANDIDATES)
                       + ods_row('<table:table-cell office:value-type="float" office:value="17"><text:p/></table:table-cell>', *ADA[1:]) + "</table:table>"), 1,
     suffix="ods", only=True, mistakes=[["Candidates!A2", "shows nothing"]])
case("ods-shown-otherwise", ods('<table:table table:name="Candidates">' + ods_row(*CANDIDATES)
                                + ods_row('<table:table-cell office:value-type="float" office:value="17"><text:p>2027017</text:p></table:table-cell>', *ADA[1:])
                                + ods_row('<table:table-cell office:value-type="float" office:value="1018"><text:p>1.018</text:p></table:table-cell>', *BO[1:]) + "</table:table>"), 1,
     suffix="ods", only=True, mistakes=[["Candidates!A2", "2027017"]], told=[["Candidates!A3", "1.018", "0001018"]])
case("ods-rows-repeated", ods('<table:table table:name="Candidates">' + ods_row(*CANDIDATES) + ods_row(*ADA, number_rows_repeated="3") + "</table:table>"),
     files={"candidates": 3 * [ADA_LINE]}, suffix="ods", told=[["Candidates!3", "same"]])
case("ods-rows-without-end", ods('<table:table table:name="Candidates">' + ods_row(*CANDIDATES) + ods_row(*ADA, number_rows_repeated="1048500") + "</table:table>"), 1,
     suffix="ods", stderr=["2,000,000"], seconds=30)
case("ods-times", ods('<table:table table:name="Openings">' + ods_row(*OPENINGS)
                      + ods_row("S1", "A", "10", '<table:table-cell office:value-type="time" office:time-value="PT12H30M00S"><text:p>12:30</text:p></table:table-cell>',
                                '<table:table-cell office:value-type="boolean" office:boolean-value="true"><text:p>WAHR</text:p></table:table-cell>')
                      + ods_row("S1", "B", "10", '<table:table-cell office:value-type="time" office:time-value="PT24H00M00S"><text:p>24:00</text:p></table:table-cell>', "no")
                      + ods_row("S1", "C", "10", '<table:table-cell office:value-type="date" office:date-value="1899-12-30T12:00:00"><text:p>12:00</text:p></table:table-cell>', "no")
                      + "</table:table>"), files={"openings": ["S1,A,10,12:30,yes", "S1,B,10,24:00,no", "S1,C,10,12:00,no"]}, suffix="ods", told=[["Openings!E2", "yes"]])
case("ods-notes-in-cells", ods('<table:table table:name="Candidates">' + ods_row(*CANDIDATES)
                               + ods_row("0000001", '<table:table-cell office:value-type="string"><text:p><text:ruby><text:ruby-base>Ada Lin</text:ruby-base><text:ruby-text>ada'
                                         "</text:ruby-text></text:ruby></text:p></table:table-cell>", "CODE0001") + "</table:table>"),
     files={"candidates": [ADA_LINE]}, suffix="ods", quiet=True)
case("ods-table-in-cell", ods('<table:table table:name="Candidates">' + ods_row(*CANDIDATES) + ods_row(
    '<table:table-cell><table:table table:name="inner"><table:table-row><table:table-cell/></table:table-row></table:table></table:table-cell>', *ADA[1:]) + "</table:table>"), 1,
     suffix="ods", stderr=["table in a cell"])

# CSV of other programs
case("csv-sep", "sep=|\nnumber|name|code\n17|Lin, Ada|CODE0001\n".encode(), suffix="csv", files={"candidates": ['0000017,"Lin, Ada",CODE0001']})
case("csv-guarded", b'number,name,code\n"=""0000017""",Ada Lin,CODE0001\n', suffix="csv", files={"candidates": ["0000017,Ada Lin,CODE0001"]},
     told=[["'harder-csv-guarded'!A2", "0000017"]])
case("csv-utf-16", "number\tname\tcode\n17\tAda L\u00f6f\tCODE0001\n".encode("utf-16"), suffix="txt", files={"candidates": ["0000017,Ada L\u00f6f,CODE0001"]})
case("csv-lines-in-cells", b'number;name;code\n17;"Ada\nLin";CODE0001\n', 1, suffix="csv", only=True, mistakes=[["'harder-csv-lines-in-cells'!B2", "line end"]])
case("csv-open-quote", b'number,name,code\n17,"Ada Lin,CODE0001\n', 1, suffix="csv", stderr=["quote"])
case("csv-nul", b"number,name,code\n17,Ada\0Lin,CODE0001\n", 1, suffix="csv")
case("csv-day-first", b"session,date,start\nS1,01/06/2027,9:00\nS2,1.6.2027,09:00\n", suffix="csv", files={"sessions": ["S1,2027-06-01,09:00", "S2,2027-06-01,09:00"]},
     beside={"columns.toml": 'dates = "day-first"\n'}, args=["--columns", "{here}/columns.toml"])
case("toml-of-nothing", b"number,name,code\n", 1, suffix="csv", beside={"columns.toml": "[candidates]\nnumber = 3\n"}, args=["--columns", "{here}/columns.toml"], stderr=["header"])
case("toml-words", xlsx(sheet("Halls", HALLS, ["A", "Aula", "Rolli, Beamer"])), files={"halls": ["A,Aula,step-free+screen"]},
     beside={"columns.toml": '[words.features]\nRolli = "step-free"\nBeamer = "screen"\n'}, args=["--columns", "{here}/columns.toml"], told=[["Halls!C2", "step-free+screen"]])
case("control-letters", xlsx(sheet("Candidates", [*CANDIDATES, "\u202eevil"], ["0000001", "Ada\u202eLin", "CODE0001"])), files={"candidates": ["0000001,AdaLin,CODE0001"]},
     told=[["Candidates!B2", "invisible"]])
case("seven-formats", xlsx(candidates([("n", "17", SEVEN), "Ada", "CODE0001"], [("n", "12345678", SEVEN), "Bo", "CODE0002"], [("n", "0", SEVEN), "Cy", "CODE0003"])), 1, only=True,
     mistakes=[["Candidates!A3", "8 digits"], ["Candidates!A4"]])
