#include "help.h"

#include <abo.h>
#include "../common/sheet_and_day.h"

/* C99 asks compilers for no more than 4095 letters in one string. */
static const char usage[] =
    "orderbook " ABO_VERSION ": a ledger of wages and invoices becomes an ABO (.kpc) file for a bank\n"
    "\n"
    "  orderbook LEDGER --sheet SHEET --day DAY [-o FILE] [--encoding ENCODING] [--register REGISTER]\n"
    "  orderbook --read FILE --sheet SHEET --day DAY [--paid STATEMENT]\n"
    "  orderbook --help, orderbook --version\n"
    "\n"
    "The file is made, read back as the bank would read it, shown as a table of what would be paid, and only then written.\n"
    "--read shows a file that is there already, whoever made it; with --paid, which of its payments have left the account.\n"
    "\n"
    "LEDGER     the ledger; - is standard input\n"
    "FILE       what is written; without -o, or with -o -, it goes to standard output, and the table to standard error. An old\n"
    "           file is replaced when the new one is whole, and else stands as it was. It must not be the ledger\n"
    "DAY        the day on which the file is made and handed to the bank, as in 2026-11-15, 15.11.2026, 20261115 or today\n"
    "STATEMENT  what the bank sent back, GPC records 074 and 075: a payment has left if a debit has its payer, payee, amount and\n"
    "           variable symbol, and came back if a reversed debit has them too\n"
    "REGISTER   on sheet K, the numbers that the day's files have used, as `abo register start` starts it: each account file takes\n"
    "           the lowest free number of the ledger's interval as its first three digits, in the place of those that the ledger\n"
    "           gives, and when FILE is written these numbers are marked. Other sheets do not look at it\n"
    "ENCODING   of the ledger: utf-8, which is taken if none is given, or cp1250 (also windows-1250). Banks read Windows-1250,\n"
    "           and that is what is written\n"
    "SHEET      the bank's rules, by letter in either case, by number 1 to 5, or by the bank's code, 0300 being C:\n"
    "\n";

static const char status[] =
    "\n"
    "The exit status is 0 if the file was written or read; 1 if its content is refused; 2 if the command line or a line of the\n"
    "ledger cannot be understood, or something cannot be read or written.\n"
    "\n";

static const char ledger[] =
    "A ledger is lines of words divided by blanks or tabs. Blank lines and lines that begin with # are passed over.\n"
    "\n"
    "  firm NAME                    the firm's name, 20 letters at most\n"
    "  client NUMBER                the client number that the bank gave\n"
    "  interval START END           of the first three digits of account files' numbers: 001 002\n"
    "  payer ACCOUNT                whose money it is, in the groups that follow: 174-1999738514\n"
    "  file KIND NUMBER             an account file begins: 1501 001001. The kinds are 1501 payments, 1502 collections,\n"
    "                               1503 priority payments, 1504 instant payments; not every sheet has all\n"
    "  due DAY                      a group begins, to be paid on this day: 2026-11-20, 20.11.2026 or 20261120. On C and P\n"
    "                               collections are due from today (bank 0300) or tomorrow (any other) to one month ahead\n"
    "  wage NAME ACCOUNT/BANK AMOUNT vs=N [ks=N] [ss=N] [priority=N] [MESSAGE]\n"
    "  invoice NAME ACCOUNT/BANK AMOUNT vs=N [ks=N] [ss=N] [priority=N] [MESSAGE]\n"
    "\n"
    "firm, client and interval stand once, anywhere. Under a file stands a due or more, under each due a wage or an invoice or\n"
    "more. A line that could mean two things is refused.\n"
    "\n"
    "NAME       of the payee: one word, or more between quotation marks: \"Jan Kapr\". It goes to the bank on sheet C, which\n"
    "           alone has a place for it, and has 35 letters at most there\n"
    "AMOUNT     in crowns: 24500, 24500.50 or 24500,50\n"
    "vs         the variable symbol, 1 to 10 digits; vs=0 if there is none\n"
    "ks         the constant symbol, 1 to 4 digits; 0138 for a wage and 0308 for an invoice if none is given\n"
    "ss         the specific symbol, 1 to 10 digits\n"
    "priority   3 to 9, on sheet K alone; 5 if none is given\n"
    "MESSAGE    the rest of the line: up to four parts divided by |, of 35 letters each. It stands between quotation marks if it\n"
    "           begins with a number, looks like a key or holds a word that begins with #: \"24 hodin\". The closing mark ends the\n"
    "           line, and no such mark stands inside\n"
    "\n"
    "The keys stand in any order before the message. For example:\n"
    "\n"
    "  firm     Rybnik Pond s.r.o.\n"
    "  client   1234567890\n"
    "  interval 001 001\n"
    "  payer    174-1999738514\n"
    "  file 1501 001001\n"
    "  due 2026-11-20\n"
    "  wage    \"Jan Kapr\"      19-19/0800 24500   vs=2611001  Mzda za listopad\n"
    "  invoice \"Mlyn a krmiva\" 705/0710   4830.20 vs=20260815 ks=0008 Krmivo, faktura 815\n";

void print_help(FILE *to)
{
    fputs(usage, to);
    print_sheets(to, "             ");
    fputs(status, to);
    fputs(ledger, to);
}
