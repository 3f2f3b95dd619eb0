"""Workbooks with odd cells, headers and rows: further cases of the form that `cases` has."""
import io
import zipfile

from cases import (ADA, ADA_LINE, ARRANGEMENTS, BO, BO_LINE, CANDIDATES, ENTRIES, HALLS, OPENINGS, PAPERS, SESSIONS, candidates,
                   sheet)
from rawbook import DATE, MAIN, TIME, ods, ods_row, xlsx, zipped

CASES = []
TWO_PAPERS = sheet("Papers", PAPERS, ["MA-1", "Maths", "S1", 90, "-"], ["FR", "French", "S1", 60, "-"])


def case(name, data, status=0, files=None, suffix="xlsx", **expected):
    CASES.append({"name": f"odd-{name}", "data": data, "suffix": suffix,
                  "expected": {"status": status, "files": files or {}, **expected}})


def changed(data, part, before, after):
    """A workbook in one part of which these letters are others."""
    with zipfile.ZipFile(io.BytesIO(data)) as archive:
        parts = {name: archive.read(name).decode() for name in archive.namelist()}
    assert before in parts[part]
    return zipped(parts | {part: parts[part].replace(before, after)})


# headers
case("name-beside-vorname", xlsx(sheet("Candidates", ["Nummer", "Name", "Vorname", "Code"], ["0000001", "Lin", "Ada", "CODE0001"])),
     files={"candidates": [ADA_LINE]}, told=[["Candidates!1", "name are read from 'Nummer', 'Vorname' with 'Name'"]])
case("name-beside-first-name", xlsx(sheet("Candidates", ["number", "name", "first name", "code"], ["0000001", "Lin", "Ada", "CODE0001"])),
     1, only=True, mistakes=[["Candidates!C1", "columns B, C could all be name"]])
case("name-three-times", xlsx(sheet("Candidates", ["number", "Name", "Vorname", "Nachname", "code"], ["0000001", "Ada Lin", "Ada", "Lin", "CODE0001"])),
     1, only=True, mistakes=[["Candidates!C1", "columns B, C, D could all be name"]])
case("list-of-withdrawals", xlsx(sheet("Withdrawals", ENTRIES, ["0000001", "MA-1"])), 1, only=True,
     mistakes=[["Withdrawals", "office withdraw --list"]])
case("paper-without-header", xlsx(TWO_PAPERS, sheet("MA-1", ["0000001", "Ada Lin"], ["0000002", "Bo Berg"])), 1, only=True,
     mistakes=[["'MA-1'!1", "no row is a header with number", "the code of a paper"]])

# numbers with units, and numbers that are shown rounded
case("minutes-with-units", xlsx(sheet("Papers", PAPERS, ["MA-1", "Maths", "S1", ("n", "2", '0" h"'), "-"], ["FR", "French", "S1", ("n", "90", '0" min"'), "-"])),
     files={"papers": ["MA-1,Maths,S1,120,-", "FR,French,S1,90,-"]}, told=[["Papers!D2", "2 h", "120"], ["Papers!D3", "90 min", "90"]])
case("other-units", xlsx(sheet("Arrangements", ARRANGEMENTS, ["0000001", "-", ("n", "50", '0" min"')]),
                         sheet("Openings", OPENINGS, ["S1", "A", ("n", "3", '0" rows"'), "12:00", "no"])), 1, only=True,
     mistakes=[["Arrangements!C2", "50 min"], ["Openings!C2", "3 rows"]])
case("rounded", xlsx(candidates([("n", "16.6", "0"), "Ada Lin", "CODE0001"]),
                     sheet("Papers", PAPERS, ["MA-1", "Maths", "S1", ("n", "1.5", "0"), "-"], ["FR", "French", "S1", ("n", "1.5", "0.00"), "-"])),
     1, only=True, mistakes=[["Candidates!A2", "number '17': is the number 16.6, but shown as 17"],
                             ["Papers!D2", "is the number 1.5, but shown as 2"], ["Papers!D3", "a whole number"]])
case("two-numbers-of-one", xlsx(candidates([("n", "17", "0-0"), "Ada Lin", "CODE0001"])), 1, only=True, mistakes=[["Candidates!A2", "a format of its own"]])
case("stored-nonsense", xlsx(candidates([("raw", '<c r="{ref}"><v>1_7</v></c>'), "Ada Lin", "CODE0001"])), 1,
     stderr=["it is broken"])
case("stored-too-much", xlsx(candidates([("raw", '<c r="{ref}"><v>1e99999999999</v></c>'), "Ada Lin", "CODE0001"])), 1,
     stderr=["it is broken"])
case("formula-of-text-without-result", xlsx(candidates(["0000001", "Ada Lin", ("raw", '<c r="{ref}" t="str"><f>A1</f></c>')],
     ["0000002", "Bo Berg", ("raw", '<c r="{ref}" t="str"><f>A1</f><v></v></c>')])), 1, only=True, mistakes=[["Candidates!C2", "formula"]])

# times and dates
case("more-than-a-day", xlsx(sheet("Openings", OPENINGS, ["S1", "A", 10, ("n", "1.375", TIME), "no"])), 1, only=True,
     mistakes=[["Openings!D2", "has a date too, 1899-12-31"]])
case("another-calendar", xlsx(sheet("Sessions", SESSIONS, ["S1", ("n", "46539", "[$-107041E]yyyy-mm-dd"), "09:00"])),
     files={"sessions": ["S1,2027-06-01,09:00"]}, told=[["Sessions!B2", "2027-06-01 (a true date) became", "Tuesday"]])
case("leap-day", xlsx(sheet("Sessions", SESSIONS, ["S1", "29/02/2028", "09:00"])), files={"sessions": ["S1,2028-02-29,09:00"]},
     told=[["Sessions!B2", "Tuesday", "as there is no month 29"]])

# rows
case("whole-rows-of-totals", xlsx(sheet("Halls", HALLS, ["TOTAL", "Total", "-"], ["SUM", "Sum", None])), 1, only=True,
     mistakes=[["Halls!2", "is this a total?"], ["Halls!3", "give it another code"]])
case("whole-row-with-a-number", xlsx(sheet("Openings", OPENINGS, ["TOTAL", "A", 10, "12:00", "no"])), 1, only=True,
     mistakes=[["Openings!2", "total?"]])
case("struck-cross", xlsx(TWO_PAPERS, sheet("Entries", ["number", "MA-1"], ["0000001", ("strike", "x")])), 1, only=True,
     mistakes=[["Entries!B2", "struck out"]])
case("cross-of-an-unknown-look", xlsx(TWO_PAPERS, sheet("Entries", ["number", "MA-1"], ["0000001", ("n", "1", "0-0")])), 1, only=True,
     mistakes=[["Entries!B2", "neither a cross nor empty"]])
case("name-like-a-total", xlsx(candidates([None, "Count Basie", "CODE0001"], BO)), 1, only=True, mistakes=[["Candidates!A2", "missing"]])
case("rows-without-number", xlsx(candidates([None, "Ada Lin", "CODE0001"], [None, "Bo Berg", "CODE0002"], BO)), 1, only=True,
     mistakes=[["Candidates!A2", "missing"], ["Candidates!A3", "missing"]])

# papers, crosses, thousands, headers that lack something
case("paper-with-papers", xlsx(TWO_PAPERS, sheet("MA-1", ENTRIES, ["0000001", "FR"])), 1, only=True,
     mistakes=[["'MA-1'!B1", "names papers"]])
case("paper-with-codes", xlsx(TWO_PAPERS, sheet("MA-1", CANDIDATES, ADA)), told=[["'MA-1'!C1", "not read"]],
     files={"papers": ["MA-1,Maths,S1,90,-", "FR,French,S1,60,-"], "entries": ["0000001,MA-1"]})
case("crosses-without-result", xlsx(TWO_PAPERS, sheet("Entries", ["number", "MA-1", "FR"], ["0000001",
     ("raw", '<c r="{ref}" t="str"><f>"x"</f></c>'), ("raw", '<c r="{ref}"><f>"x"</f></c>')])), 1, only=True,
     mistakes=[["Entries!B2", "no spreadsheet has computed"], ["Entries!C2", "no spreadsheet has computed"]])
case("thousands", xlsx(candidates(["1.000", "Ada Lin", "CODE0001"]), sheet("Openings", OPENINGS, ["S1", "A", "1.000", "12:00", "no"],
     ["S1", "B", "40.0", "12:00", "no"])), 1, only=True, mistakes=[["Candidates!A2", "0001000"], ["Openings!C2", "1.000"]],
     told=[["Openings!C3", "40"]])
case("header-lacks", xlsx(sheet("Papers", ["Plan"], ["Paper", "Title", "Duration"], ["MA-1", "Maths", 90])), 1, only=True,
     mistakes=[["Papers!2", "lacks", "session, requires"]])
case("candidates-by-header", b"Candidate number,Full name,code\n0000001,Ada Lin,CODE0001\n", files={"candidates": [ADA_LINE]}, suffix="csv")
case("always-and-column", xlsx(sheet("Openings", OPENINGS, ["S1", "A", 10, "12:00", "yes"])), files={"openings": ["S1,A,10,12:00,yes"]},
     beside={"columns.toml": '\ufeff[openings]\nreserved = { always = "no" }\n'}, args=["--columns", "{here}/columns.toml"],
     told=[["Openings!E1", "is not always no"]])
case("columns-of-another-encoding", xlsx(candidates(ADA)), 1, beside={"columns.toml": "\ufeff"}, stderr=["no UTF-8"],
     args=["--columns", "{here}/odd-columns-of-another-encoding.xlsx"])
case("utf-16-without-mark", "number,name,code\n0000001,Ada Lin,CODE0001\n".encode("utf-16-le"), files={"candidates": [ADA_LINE]}, suffix="csv",
     args=["--encoding", "utf-16-le"])

# forms of files, and what is hidden
case("zero-height", changed(xlsx(candidates(ADA, BO)), "xl/worksheets/sheet1.xml", "<sheetData>",
     '<sheetFormatPr defaultRowHeight="15" zeroHeight="1"/><sheetData>'), 1, only=True, mistakes=[["Candidates!2", "hidden"], ["Candidates!3", "hidden"]])
case("strict", changed(xlsx(candidates(ADA)), "xl/workbook.xml", MAIN, "http://purl.oclc.org/ooxml/spreadsheetml/main"), 1,
     stderr=["Strict Open XML"])
case("ods-password", zipped({"mimetype": "x", "encrypted-package": "x"}), 1, suffix="ods", stderr=["it has a password"])
NUMBERED = '<table:table table:name="Openings">' + ods_row(*OPENINGS)
case("ods-days", ods(NUMBERED + ods_row("S1", "A", "10", '<table:table-cell office:value-type="time" office:time-value="P1DT0H"><text:p>00:00</text:p></table:table-cell>',
     "no") + "</table:table>"), files={"openings": ["S1,A,10,24:00,no"]}, suffix="ods", told=[["Openings!D2", "24:00"]])
case("ods-formulas", ods(NUMBERED + ods_row("S1", '<table:table-cell table:formula="of:=1" office:value-type="string"/>',
     '<table:table-cell table:formula="of:=1" office:value-type="float"/>', "12:00", "no") + "</table:table>"), 1, suffix="ods", only=True,
     mistakes=[["Openings!B2", "no spreadsheet has computed"], ["Openings!C2", "no spreadsheet has computed"]])
HIDDEN_STYLE = '<style:style style:name="ro1" style:family="table-row"><style:table-row-properties style:row-height="0cm"/></style:style>'
case("ods-hidden", ods('<table:table table:name="Candidates"><table:table-column-group table:display="false"><table:table-column '
     'table:number-columns-repeated="1"/></table:table-column-group>' + ods_row(*CANDIDATES) + ods_row(*ADA).replace("<table:table-row",
     '<table:table-row table:style-name="ro1"') + "</table:table>", HIDDEN_STYLE), 1, suffix="ods", only=True,
     mistakes=[["Candidates!2", "hidden"]], told=[["Candidates!A1", "column A is hidden"]])
case("ods-comment-in-text", ods('<table:table table:name="Candidates">' + ods_row(*CANDIDATES) + ods_row(ADA[0],
     '<table:table-cell office:value-type="string"><text:p>Ada Lin<office:annotation><text:p>left</text:p></office:annotation></text:p></table:table-cell>',
     ADA[2]) + "</table:table>"), files={"candidates": [ADA_LINE]}, suffix="ods", told=[["Candidates!B2", "comment"]])

STYLES = (f'<styleSheet xmlns="{MAIN}"><fonts><font/><font><strike val="0"/></font></fonts><cellXfs><xf/><xf numFmtId="14" fontId="1"/>'
          '<xf numFmtId="18"/><xf numFmtId="43"/><xf numFmtId="9"/></cellXfs></styleSheet>')
case("formats-by-number", xlsx(sheet("Sessions", SESSIONS, ["S1", ("raw", '<c r="{ref}" s="1"><v>46539</v></c>'), ("raw", '<c r="{ref}" s="2"><v>0.375</v></c>')]),
     sheet("Openings", OPENINGS, ["S1", "A", ("raw", '<c r="{ref}" s="3"><v>24</v></c>'), "12:00", "no"]),
     sheet("Arrangements", ARRANGEMENTS, ["0000001", "-", ("raw", '<c r="{ref}" s="4"><v>0.25</v></c>')]), parts={"xl/styles.xml": STYLES}),
     files={"sessions": ["S1,2027-06-01,09:00"], "openings": ["S1,A,24,12:00,no"], "arrangements": ["0000001,-,25"]},
     told=[["Sessions!B2", "Tuesday"], ["Sessions!C2", "a true time", "became 09:00"], ["Openings!C2", "24.00 became 24"]])
case("other-namespace", changed(xlsx(sheet("Halls", HALLS, ["A", "Hall A", "-"]), candidates(ADA)), "xl/worksheets/sheet1.xml", MAIN, "urn:other"),
     files={"candidates": [ADA_LINE]}, told=[["", "the sheet Halls is no table"]])

# columns that say more than is read
case("features-by-other-names", xlsx(sheet("Halls", ["Room", "Name", "Capacity", "Step free?", "Computers"], ["A", "Hall A", 30, "Yes", "No"], ["B", "Hall B", 30, "No", "Y"]),
     sheet("Arrangements", ["number", "reader", "Wheelchair", "extra"], ["0000001", "x", None, 0], ["0000002", None, "x", 25])), 1, only=True,
     mistakes=[["Halls!E1", "'Computers' has crosses", "call it computer"], ["Arrangements!C1", "call it step-free"]], told=[["Halls!C1", "not read"]])
case("entries-with-a-state", xlsx(TWO_PAPERS, sheet("Entries", [*ENTRIES, "status"], ["0000001", "MA-1", "entered"], ["0000002", "FR", "WITHDRAWN"])), 1,
     only=True, mistakes=[["Entries!C1", "Entries!C3", "withdrawn"]])
case("entries-withdrawn", xlsx(TWO_PAPERS, sheet("Entries", [*ENTRIES, "Withdrawn?", "abgemeldet"], ["0000001", "MA-1", "no", None], ["0000002", "FR", "x", "x"])), 1,
     only=True, mistakes=[["Entries!C1", "Entries!C3", "withdrawn"], ["Entries!D1", "Entries!D3", "withdrawn"]])
case("entries-none-withdrawn", xlsx(TWO_PAPERS, sheet("Entries", [*ENTRIES, "Withdrawn", "Form"], ["0000001", "MA-1", "no", "11A"], ["0000002", "FR", None, "11B"])),
     files={"papers": ["MA-1,Maths,S1,90,-", "FR,French,S1,60,-"], "entries": ["0000001,MA-1", "0000002,FR"]}, told=[["Entries!C1", "not read"], ["Entries!D1", "not read"]])

# what is not named, and what is not read
case("merged-header", xlsx(candidates(["0000001", "Lin", "CODE0001"], merge=["B1:C1"])), 1, only=True, mistakes=[["Candidates!B1", "merged over columns"]])
case("sheet-by-header", xlsx(sheet("Plan", CANDIDATES, ADA)), files={"candidates": [ADA_LINE]}, told=[["Plan", "is read as candidates, by its header"]])
case("crosses-beside-candidates", xlsx(sheet("Candidates", [*CANDIDATES, "MA-1", "step-free", "Consent"], [*ADA, "x", None, "x"], [*BO, None, "x", None])),
     1, only=True, mistakes=[["Candidates!D1", "a sheet Entries"], ["Candidates!E1", "a sheet Arrangements"]], told=[["Candidates!F1", "not read"]])
case("struck-and-odd", xlsx(candidates(["0000001", ("strike", "Fran\u00c3\u00a7ois"), "CODE0001"])), 1, only=True, quiet=True,
     mistakes=[["Candidates!B2", "struck"]])
case("text-under-a-format-of-numbers", xlsx(candidates([("t", "0000001", "@ 0"), *ADA[1:]])), files={"candidates": [ADA_LINE]},
     told=[["Candidates!A2", "0000001"]])
case("column-of-other-letters", xlsx(candidates([ADA[0], ("raw", '<c r="\u00c92" t="inlineStr"><is><t>Ada Lin</t></is></c>'), ADA[2]])), 1,
     stderr=["it is broken or cut short (ValueError: '\u00c9' is no column)"])
case("numbers-beyond-all-digits", xlsx(candidates([("n", "1e30", "0"), *ADA[1:]], [("n", "-1e999999", "General"), *BO[1:]])), 1, only=True,
     mistakes=[["Candidates!A2", "1.00000E+30"], ["Candidates!A3", "-1.00000E+999999"]])
case("row-of-headers-words", xlsx(sheet("Candidates", [*CANDIDATES, "Form"], [*ADA, None], ["0000002", "Hall", "CODE0002", "Exam"])),
     files={"candidates": [ADA_LINE, "0000002,Hall,CODE0002"]}, told=[["Candidates!D1", "not read"]])
case("total-beside-codes", xlsx(sheet("Openings", OPENINGS, ["S1", "A", 10, "12:00", "no"], ["S1", "TOTAL", 10, None, None])),
     files={"openings": ["S1,A,10,12:00,no"]}, told=[["Openings!3", "looks like a total"]])
case("minus-zero", xlsx(sheet("Arrangements", ARRANGEMENTS, ["0000001", "quiet", ("n", "-0", "General")])),
     files={"arrangements": ["0000001,quiet,0"]})
case("total-in-the-middle", xlsx(sheet("Openings", OPENINGS, ["S1", "A", 10, "12:00", "no"], [None, None, ("f", "SUM(C2)", 10), None, None],
     ["S1", "B", 5, "12:00", "no"])), 1, only=True, mistakes=[[f"Openings!{letter}3", "is missing"] for letter in "ABD"])
case("merged-reversed", xlsx(candidates(ADA, BO, merge=["A3:A2"])), 1, mistakes=[["Candidates!A3", "hidden by the merged cells A2:A3"]])
case("merged-reversed-columns", xlsx(candidates(["0000001", None, "CODE0001"], merge=["B2:A2"])), 1, mistakes=[["Candidates!A2", "A2:B2"]])
case("merged-and-empty", xlsx(candidates(ADA, [], [], [], BO, merge=["A3:C3", "A4:A5"])), files={"candidates": [ADA_LINE, BO_LINE]}, quiet=True)
case("merged-header-downwards", xlsx(candidates([], ADA, merge=["A1:A2", "B1:B2"])), files={"candidates": [ADA_LINE]}, quiet=True)
case("numbers-by-conditions", xlsx(sheet("Openings", OPENINGS, ["S1", "A", ("n", "24", '[>100]0;0"0"'), "12:00", "no"],
     ["S1", "B", ("n", "24", '0;[<30]0"0"'), "12:00", "no"])), 1, only=True, mistakes=[["Openings!C2"], ["Openings!C3"]])
case("numbers-by-plain-formats", xlsx(candidates([("n", "1", ""), *ADA[1:]], [("n", "2", "+General"), *BO[1:]])),
     files={"candidates": [ADA_LINE, BO_LINE]}, told=[["Candidates!A3", "number +2 became 0000002"]])
case("zero-and-minus-by-sections", xlsx(sheet("Arrangements", ARRANGEMENTS, ["0000001", "quiet", ("n", "0", '0;0;"-"')],
     ["0000002", "quiet", ("n", "-4", '0;0;"-"')])), 1, only=True, mistakes=[["Arrangements!C2", "shown as -:"], ["Arrangements!C3", "shown as 4:"]])
case("numbers-with-three-places", xlsx(sheet("Halls", HALLS, ["A", ("n", "1.018", "0.000"), "-"], ["B", ("n", "1018", '"1."000'), "-"],
     ["C", ("n", "1018", "#,##0"), "-"])), 1, only=True, mistakes=[["Halls!B3", "is the number 1018, but shown as 1.1018"]],
     told=[["Halls!B2", "title 1.018 is a number in the workbook"], ["Halls!B4", "title 1,018 is a number"]])
case("codes-in-brackets", xlsx(sheet("Halls", HALLS, [("n", "101", "[Red]0"), "A", "-"], [("n", "102", "[$\u20ac-407]0"), "B", "-"])), 1,
     only=True, mistakes=[["Halls!A3", "shown as \u20ac102:"]])
case("number-without-zeros", xlsx(candidates([("n", "1", "#"), *ADA[1:]])), files={"candidates": [ADA_LINE]},
     told=[["Candidates!A2", "number 1 became 0000001"]])
case("zero-with-a-zero", xlsx(sheet("Arrangements", ARRANGEMENTS, ["0000001", "quiet", ("n", "0", "0")])),
     files={"arrangements": ["0000001,quiet,0"]}, told=[["", "0 mistakes, 0 changes"], ["", "NOTE: arrangements: no candidates are known"]])
case("text-under-numbers", xlsx(candidates([("t", "0000001", "0"), *ADA[1:]])), files={"candidates": [ADA_LINE]}, quiet=True)
case("afternoon", xlsx(sheet("Sessions", SESSIONS, ["S1", "2027-06-01", ("n", "0.60416666666666663", TIME)])),
     files={"sessions": ["S1,2027-06-01,14:30"]}, quiet=True)
case("percent-by-conditions", xlsx(sheet("Arrangements", ARRANGEMENTS, ["0000001", "-", ("n", "0.25", "[<1]0%;0%")])),
     files={"arrangements": ["0000001,-,25"]}, told=[["Arrangements!C2", "extra 25% became 25 (percent)"]])
case("hidden-and-empty", xlsx(candidates(ADA, [" "], BO, hidden_rows=[3])), files={"candidates": [ADA_LINE, BO_LINE]}, quiet=True)
case("total-above-a-note", xlsx(sheet("Openings", OPENINGS, ["S1", "A", 10, "12:00", "no"], [None, None, ("f", "SUM(C2)", 10), None, None],
     [None, None, None, None, None, "made by Bo"])), 1, only=True, mistakes=[[f"Openings!{letter}3", "is missing"] for letter in "ABD"])
case("called-sum", xlsx(candidates(["0000001", "Sum", "CODE0001"])), files={"candidates": ["0000001,Sum,CODE0001"]}, quiet=True)
case("wrong-code", xlsx(candidates(["0000001", "Ada Lin", "SHORT"])), 1, only=True, mistakes=[["Candidates!C2"]],
     told=[["", "1 mistake, 0 changes, 0 notes"]])
case("columns-of-half-a-kind", xlsx(sheet("Plan", ["Termin", "Raum"], ["S1", "A"])), 1, only=True, args=["--columns", "{here}/columns.toml"],
     beside={"columns.toml": '[openings]\nsession = "Termin"\nhall = "Raum"\n'},
     mistakes=[["Plan!1", f"the column {name} is missing"] for name in ("desks", "until", "reserved")])
case("paper-called-like-a-session", xlsx(sheet("Sessions", SESSIONS, ["S1", "2027-06-01", "09:00"]), sheet("Papers", PAPERS, ["S1", "M", "S1", 90, "-"]),
     sheet("Openings", OPENINGS, ["S1", "A", 10, ("n", "46539.5", "dd/mm/yyyy hh:mm"), "no"])), files={
         "sessions": ["S1,2027-06-01,09:00"], "papers": ["S1,M,S1,90,-"], "openings": ["S1,A,10,12:00,no"]})
case("header-alone", xlsx(candidates()), 1, mistakes=[["", "no sheet has rows of one of the seven kinds: see `office template`"]],
     told=[["Candidates", "has no candidates; no file of them is written"]])
case("empty-sheet", xlsx(candidates(ADA), sheet("Halls")), files={"candidates": [ADA_LINE]}, quiet=True)

# which sheets are meant
PUPILS = sheet("Pupils", CANDIDATES, BO)
case("sheet-named", xlsx(candidates(ADA), PUPILS), files={"candidates": [ADA_LINE]}, args=["--sheet", "Candidates"],
     told=[["Pupils", "is not read, as you said"]])
case("list-of-a-paper-hidden", xlsx(TWO_PAPERS, sheet("FR", ["number"], ["0000001"], state="hidden")), 1, only=True,
     mistakes=[["FR", "is hidden: show it if it has the entries"]])
case("one-list-of-a-paper-hidden", xlsx(TWO_PAPERS, sheet("FR", ["number"], ["0000001"], state="hidden"), sheet("MA-1", ["number"], ["0000001"])),
     files={"papers": ["MA-1,Maths,S1,90,-", "FR,French,S1,60,-"], "entries": ["0000001,MA-1"]}, told=[["FR", "is hidden, so it is not read"]])
case("sheet-named-and-hidden", xlsx(candidates(ADA), PUPILS | {"state": "hidden"}), files={"candidates": [BO_LINE]}, args=["--sheet", "Pupils"],
     told=[["Pupils", "is hidden and read, as you said"]])
case("sheets-that-are-not-there", xlsx(candidates(ADA)), 1, args=["--sheet", "Pupils", "--leave", "candidates"],
     mistakes=[["", "there is no sheet Pupils, candidates; there are: Candidates"]])
case("columns-of-sheets", xlsx(sheet("Pupils 2027", ["Nr", *CANDIDATES[1:]], ADA), sheet("Alumni", ["Nr", *CANDIDATES[1:]], BO), sheet("Plan", CANDIDATES[:2], BO[:2])),
     files={"candidates": [ADA_LINE]}, args=["--columns", "{here}/columns.toml"],
     beside={"columns.toml": '[candidates]\nsheet = "PUPILS-2027"\nnumber = "Nr"\n'}, told=[["Alumni", "not read"], ["Plan", "not read"]])
case("columns-of-another-file", b"Nr,name,code\n0000001,Ada Lin,CODE0001\n", suffix="csv", files={"candidates": [ADA_LINE]},
     args=["--columns", "{here}/columns.toml"], beside={"columns.toml": '[candidates]\nnumber = "Nr"\n[halls]\nsheet = "Rooms"\n'})
case("columns-of-no-paper", xlsx(sheet("Papers", PAPERS, ["MA-1", "Maths", "S1", 90, "-"]), sheet("Entries", ["number"], ["0000001"])), 1, only=True,
     args=["--columns", "{here}/columns.toml"], beside={"columns.toml": '[entries]\npaper = { always = "XX-9" }\n'},
     mistakes=[["Entries!2", "paper 'XX-9': is not among the papers"]])
case("zeros-of-no-candidate", xlsx(candidates(ADA), sheet("Entries", ENTRIES, [1, "MA-1"], [9, "MA-1"])), 1, only=True,
     mistakes=[["Entries!A3", "is not among the candidates"]])
case("notes-below-papers", xlsx(sheet("Papers", PAPERS, ["MA-1", "Maths", "S1", 90, "-"], *2 * [[None, None, None, None, None, "as of May"]])),
     files={"papers": ["MA-1,Maths,S1,90,-"]}, told=[["Papers!F3", "the column with no header is not read"]])
case("sheet-called-as-a-header", xlsx(TWO_PAPERS, sheet("Paper", ["number", "name"], ADA[:2])),
     files={"papers": ["MA-1,Maths,S1,90,-", "FR,French,S1,60,-"], "candidates": ["0000001,Ada Lin,"]})

# columns that are not read, and such as must be looked at
case("columns-beside-features", xlsx(TWO_PAPERS, sheet("Halls", [*HALLS, "screen", "Booked", "Laptops", "MA-1"], ["A", "Hall A", "quiet", "big", "x", "3", "x"])),
     files={"papers": ["MA-1,Maths,S1,90,-", "FR,French,S1,60,-"], "halls": ["A,Hall A,quiet"]},
     told=[[f"Halls!{letter}1", "is not read"] for letter in "DEFG"])
case("columns-beside-candidates", xlsx(sheet("Candidates", [*CANDIDATES, "Laptop", "status", "Exam"], [*ADA, "x", "Withdrawn", "FR"])),
     files={"candidates": [ADA_LINE]}, told=[[f"Candidates!{letter}1", "is not read"] for letter in "DEF"])
case("features-missing", xlsx(sheet("Halls", HALLS[:2], ["A", "Hall A"])), 1, only=True, mistakes=[["Halls!1", "the column features is missing"]])
case("crosses-beside-one-value", xlsx(sheet("Halls", [*HALLS[:2], "screen"], ["A", "Hall A", "x"])), 1, only=True,
     args=["--columns", "{here}/columns.toml"], beside={"columns.toml": '[halls]\nfeatures = { always = "quiet" }\n'},
     mistakes=[["Halls!C1", "'screen' has crosses", "keep no column features beside it"]])
case("rooms-without-features", xlsx(candidates(ADA), sheet("Rooms of 2026", HALLS[:2], ["A", "Hall A"])), files={"candidates": [ADA_LINE]},
     told=[["'Rooms of 2026'", "is not read: no row is the header"]])
case("entries-with-two-names", xlsx(TWO_PAPERS, sheet("Entries", ["number", "Vorname", "Nachname", "paper"], ["0000001", "Ada", "Lin", "MA-1"])),
     files={"papers": ["MA-1,Maths,S1,90,-", "FR,French,S1,60,-"], "entries": ["0000001,MA-1"]},
     told=[[f"Entries!{letter}1", "is not read"] for letter in "BC"])
case("number-below-the-format-text", xlsx(candidates([("n", "17", "@"), "Ada", "CODE0017"])), files={"candidates": ["0000017,Ada,CODE0017"]},
     told=[["Candidates!A2", "number 17 became 0000017"]])
case("zero-below-two-formats", xlsx(sheet("Arrangements", ARRANGEMENTS, ["0000001", "quiet", ("n", "0", '0;"minus "0')])),
     files={"arrangements": ["0000001,quiet,0"]})
case("two-values-of-all-rows-that-nobody-knows", xlsx(sheet("Sessions", SESSIONS, ["S1", "2027-06-01", "09:00"]), sheet("Halls", HALLS, ["A", "Hall A", "-"]),
     sheet("Openings", OPENINGS[2:], ["10", "12:00", "no"])), 1, only=True, args=["--columns", "{here}/columns.toml"],
     beside={"columns.toml": '[openings]\nsession = { always = "S9" }\nhall = { always = "B" }\n'},
     mistakes=[["Openings!2", "session 'S9'"], ["Openings!2", "hall 'B'"]])
case("groups-in-a-hidden-group", ods('<table:table table:name="Candidates">' + ods_row(*CANDIDATES) + '<table:table-row-group table:display="false">'
     "<table:table-row-group>" + ods_row(*ADA) + "</table:table-row-group></table:table-row-group></table:table>"), 1, suffix="ods", only=True,
     mistakes=[["Candidates!2", "is hidden"]])
case("rows-repeated", ods('<table:table table:name="Candidates">' + ods_row(*CANDIDATES) + ods_row(*ADA, number_rows_repeated="2")
     + ods_row(number_rows_repeated="3") + ods_row("x", *BO[1:]) + "</table:table>"), 1, suffix="ods", only=True,
     told=[["Candidates!3", "the same as Candidates!2"]], mistakes=[["Candidates!A7", "number 'x'"]])
case("dates-of-the-command-and-of-a-file", xlsx(sheet("Sessions", SESSIONS, ["S1", "01/06/2027", "09:00"])), files={"sessions": ["S1,2027-06-01,09:00"]},
     args=["--dates", "day-first", "--columns", "{here}/columns.toml"], beside={"columns.toml": 'dates = "month-first"\n'})
case("first-name-alone", xlsx(sheet("Candidates", ["number", "Vorname", "Nachname", "code"], ["0000001", "Ada", None, "CODE0001"],
     ["0000002", None, "Lin", "CODE0002"])), files={"candidates": ["0000001,Ada,CODE0001", "0000002,Lin,CODE0002"]},
     told=[["Candidates!C2", "is empty"], ["Candidates!B3", "is empty"]])
case("header-repeated-in-part", xlsx(candidates(ADA, ["number", None, None])), 1, mistakes=[["Candidates!A3", "number 'number'"]])
case("day-12-beside-a-text", xlsx(sheet("Sessions", SESSIONS, ["S1", ("n", "46550", DATE), "09:00"], ["S2", "13/06/2027", "09:00"])),
     1, mistakes=[["Sessions!B2", "2027-06-12", "a mixture"]])
case("entries-with-crosses-beside", xlsx(TWO_PAPERS, sheet("Entries", [*ENTRIES, "Paid"], ["0000001", "MA-1", "x"])),
     files={"papers": ["MA-1,Maths,S1,90,-", "FR,French,S1,60,-"], "entries": ["0000001,MA-1"]}, told=[["Entries!C1", "not read"]])
case("entries-with-crosses-of-papers-beside", xlsx(TWO_PAPERS, sheet("Entries", [*ENTRIES, "FR"], ["0000001", "MA-1", "x"])), 1, only=True,
     mistakes=[["Entries!C1", "'FR' has crosses (Entries!C2) which are not read: say in one way who sits what"]])
case("list-of-a-paper-with-crosses-beside", xlsx(TWO_PAPERS, sheet("MA-1", ["number", "FR", "Paid"], ["0000001", "x", "x"])), 1, only=True,
     mistakes=[["'MA-1'!B1", "'FR' has crosses"]], told=[["'MA-1'!C1", "not read"]])
case("entries-with-words-on-withdrawals", xlsx(TWO_PAPERS, sheet("Entries", [*ENTRIES, "Withdrawn"], ["0000001", "MA-1", "no"],
     ["0000002", "MA-1", "in March"])), 1, only=True, mistakes=[["Entries!C1", "Entries!C3 seems to say"]])
case("column-in-capitals-and-hidden", xlsx(sheet("Candidates", [*CANDIDATES, "FORM"], [*ADA, "7a"], hidden_columns=[4])), files={"candidates": [ADA_LINE]},
     told=[["Candidates!D1", "the column 'FORM' is not read"]])
