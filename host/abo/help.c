#include "help.h"

#include <stdio.h>

#include <abo.h>
#include "../common/sheet_and_day.h"

static const char commands[] =
    "abo " ABO_VERSION ": Czech ABO (.kpc) payment files, judged by a bank's sheet, and statements\n"
    "\n"
    "  abo check   FILE .. --sheet SHEET --day DAY [--strict]   is each file accepted, and if not, which field is wrong and why\n"
    "  abo check   FILE .. [--sheet SHEET] --day DAY --all-sheets\n"
    "                                                           and what every sheet makes of it, as a small table\n"
    "  abo check   FILE .. --sheet SHEET --day DAY --json       the same for programs\n"
    "  abo check   FILE .. --sheet K --day DAY --register REG   so too, and its numbers must be unused that day; then they are marked\n"
    "  abo show    FILE .. --sheet SHEET --day DAY [--strict]   its account files, groups and items as a table\n"
    "  abo explain FILE .. --sheet SHEET --day DAY [--strict]   the library's own text on it, for a log, proved to be true\n"
    "  abo rewrite FILE --sheet SHEET --day DAY [-o OUT] [--accept-warnings]\n"
    "                                                           its one canonical spelling, to standard output or OUT\n"
    "  abo statement FILE .. [--check]                          what a bank sent back (GPC records 074 and 075), as a table\n"
    "  abo statement FILE [--csv] [-o OUT]                      the same to OUT; with --csv as cells for a spreadsheet\n"
    "  abo register start REG --date DAY [--again]              starts a day's register: none of its 1000 numbers is marked\n"
    "  abo register lowest REG                                  the lowest free number of the day, in three digits\n"
    "  abo register free REG                                    how many numbers are still free\n"
    "  abo register give-back REG NUMBER                        takes back a number that the bank gave back: it is free again\n"
    "  abo help, abo --version\n"
    "\n";

static const char words[] =
    "FILE    a file of any size; - is standard input\n"
    "DAY     the day that the file is judged on: 2026-11-15, 15.11.2026, 20261115, or today by this machine's clock; a real day\n"
    "        of 2000 to 2099\n"
    "OUT     replaced when the new file is whole and on the disk, and only if FILE is accepted; - is standard output\n"
    "REG     the register of the numbers, first three digits of an account file's number, that K's files of one creation date have used\n"
    "SHEET   the bank whose rules hold, by its letter in either case, its number 1 to 5 or its code, 0300 being C:\n";

static const char rest[] =
    "\n"
    "--lang cs, en       the language of what is said of a file: Czech or English; without it by the locale (LC_ALL, LC_MESSAGES, LANG)\n"
    "--all-sheets        of each sheet, whether it accepts the file that day; --sheet may be left out then\n"
    "--json              an object of JSON in a line for each file, in ASCII: its findings by number and name, and every sheet\n"
    "--strict            a file with warnings is accepted, but the exit status is 1, and its numbers are not marked\n"
    "--register REG      of K, whose files are for the register's date and use no number twice a day; other sheets do not look at it\n"
    "--date DAY          the creation date that a register is started for\n"
    "--again             start a register anew though its day is not over and numbers are marked in it, which are lost then\n"
    "--accept-warnings   rewrite a file with warnings too: what was cut stays cut, and totals become the sums\n"
    "--check             of a statement, only whether it is accepted, and if not, why and where\n"
    "--csv               of a statement, a line for each movement, in UTF-8, its cells divided by commas\n"
    "\n"
    "A statement is the same for every bank and day. Its table has for each movement what it does to the balance, in crowns, and the\n"
    "balance behind it. A refusal says the record, of 128 bytes and CR LF, in the place of the line.\n"
    "\n"
    "A refusal says the line and the column, counted from 1, and the byte, counted from 0 at the start of the file; then the field, what is\n"
    "wrong with it, what was found there and what is allowed; and shows the line with a caret. check says as much of each warning of a\n"
    "file that is accepted. Texts are shown by Windows-1250, which banks read; a byte with no letter is shown as \xef\xbf\xbd. check prints a\n"
    "refusal to standard output, as --check does, rewrite, show and statement to standard error; with several files each begins NAME:LINE:COLUMN. The number at\n"
    "its end is the library's.\n"
    "\n"
    "A register is a file of 136 bytes. It is replaced whole or not at all, and while it is used REG.lock, an empty file beside it, is locked, so\n"
    "that several may check at once and no mark is lost; that file stays. What is refused leaves the register as it was.\n"
    "\n"
    "On C and P a collection (kind 1502) is due from today, if its bank is 0300, or from tomorrow, if it is any other, to one month ahead.\n"
    "Each item is judged: the refusal stands at its bank, and a note says the group's day and its line.\n"
    "\n"
    "The exit status is 0 if each file is accepted, with warnings or without; 1 if one is refused, has warnings with --strict, or\n"
    "has warnings and is to be rewritten without --accept-warnings, or if register refuses: no number is free, that number is not marked, marks\n"
    "would be lost, or REG is no register; 2 if the command line is wrong or something cannot be read or written. With --all-sheets and no\n"
    "sheet, a file is accepted if some sheet accepts it.\n";

void print_help(void)
{
    fputs(commands, stdout);
    fputs(words, stdout);
    print_sheets(stdout, "          ");
    fputs(rest, stdout);
}
