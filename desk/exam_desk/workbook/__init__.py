"""From a workbook to the seven import files and back: readers, values, finding, rows, the check, writing."""
