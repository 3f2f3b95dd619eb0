"""Workbooks that ask for more memory or time than any school: each must be refused soon. Too large for the gate."""
from typing import Any

import harder
from cases import ADA, ARRANGEMENTS, candidates, sheet
from rawbook import ods, ods_row, xlsx

SHEET = "xl/worksheets/sheet1.xml"
ONES = "<row>" + 300 * "<c><v>1</v></c>" + "</row>"


def bombs() -> list[dict[str, Any]]:
    """Cases as in `cases`, made when they are asked for."""
    def bomb(name: str, data: bytes, word: str, suffix: str = "xlsx") -> dict[str, Any]:
        return {"name": f"bomb-{name}", "data": data, "suffix": suffix, "expected": {"status": 1, "files": {}, "stderr": [word]}}

    def part(text: bytes | str) -> bytes:
        return xlsx(candidates(ADA), parts={SHEET: text})
    cells = '<table:table-cell table:number-columns-repeated="1000" office:value-type="string"><text:p>x</text:p></table:table-cell>'
    spaces = [[f"{place:07}", f"a{950 * ' '}{place}", 0] for place in range(1, 2001)]
    return [
        bomb("marks", xlsx(candidates(["0000001", 1_000_000 * "\u0301" + 1_000_000 * "\u0327", "CODE0001"])), "at most 1000 are looked at"),
        bomb("digits", xlsx(candidates([("n", 3_000_000 * "1" + "x"), "Ada", "CODE0001"])), "is no number"),
        bomb("brackets", xlsx(candidates([("n", "17", 3_000_000 * "["), "Ada", "CODE0001"])), "a number format has"),
        bomb("spaces", xlsx(sheet("Arrangements", ARRANGEMENTS, *spaces)), "none of the features"),
        bomb("zip", part(b"<worksheet>" + 540_000_000 * b" "), "512 MB"),
        bomb("text", part(b'<worksheet a="' + 100_000_000 * b" "), "no end"),
        bomb("elements", part(b"<worksheet>" + 30_000_000 * b"<a/>"), "elements"),
        bomb("cells", part(harder.sheet_xml(7000 * ONES)), "2,000,000"),
        bomb("depth", part(2_000_000 * b"<a>"), "deep"),
        bomb("letters", part(harder.sheet_xml("".join(
            f'<row><c t="inlineStr"><is><t>{32767 * "x"}</t></is></c></row>' for _ in range(6000)))), "128 MB"),
        bomb("row", (64 << 20) // 3 * b"11,", "one of its rows has more than 4,194,304 bytes", "csv"),
        bomb("lines", 2_000_000 * b"1\n", "beyond the last row", "csv"),
        bomb("rows", ods('<table:table table:name="Candidates">' + ods_row(cells, number_rows_repeated="1000000") + "</table:table>"),
             "2,000,000", "ods")]
