/* sheet FILE: the report of a depot sheet in a file, by estimators_sheet_report. What stands past the longest sheet and one byte more plays no
 * part in a report, so 1,418 bytes of the file are enough. */
#include "estimators.h"
#include <stdio.h>

int main(int count, char **words)
{
    uint8_t sheet[ESTIMATORS_SHEET], report[ESTIMATORS_REPORT];
    size_t length;
    uint64_t written = 0;
    FILE *file;

    if (count != 2) {
        fprintf(stderr, "usage: sheet FILE\n");
        return 2;
    }
    file = fopen(words[1], "rb");
    if (file == NULL) {
        perror(words[1]);
        return 2;
    }
    length = fread(sheet, 1, sizeof sheet, file);
    fclose(file);
    if (estimators_sheet_report(sheet, length, report, sizeof report, &written) != ESTIMATORS_OK)
        return 1; /* not reached: the report has its room */
    return fwrite(report, 1, (size_t)written, stdout) == written ? 0 : 1;
}
