/* The program station: parts, a job on files, and the bill of a job file, by the proved library. */
#include <stdio.h>
#include <string.h>

#include "bill.h"
#include "fault.h"
#include "files.h"
#include "load.h"
#include "parts.h"
#include "station.h"

static const char help[] =
    "station: what loading a flash part costs, by the proved library\n"
    "\n"
    "station parts              print the parts with their figures\n"
    "station load ..            load an image onto a part's cells, and print the bill\n"
    "  --part PART              its name, as VF800A or SST39VF800A, or its number\n"
    "  --image FILE             the values to load\n"
    "  --cells FILE             what the part holds; blank where it is not given\n"
    "  --first A                the first address (0)\n"
    "  --p N                    the polling interval, 1 to 1,000 " MICROS " (10)\n"
    "  --wp low                 the level of WP#, low or high (high)\n"
    "  --pad                    fill the image up with blank to whole sectors\n"
    "  --out FILE               write what the part holds afterwards\n"
    "  --map                    print what each sector gets, a character a sector\n"
    "  --svg FILE               write the same as a picture, with the bill\n"
    "station bill FILE.job      print the bill of a job file on a blank bench part\n"
    "station --help             print this\n"
    "\n"
    "A file has a value a cell: 16-bit words, little-endian, or bytes on eight-bit parts. A number is decimal, or\n"
    "hexadecimal as 0x1234 or 1234H. Files are written whole or not at all, and none where the job is refused.\n"
    "Exit status: 0; the number of the refusal; 64 for a wrong call; 74 where a file cannot be read or written.\n";

static int wrong_call(const char *what, const char *word)
{
    return fault(STATUS_WRONG_CALL, "%s%s (station --help tells what there is)", what, word);
}

/* The options that take a word after them. */
enum option { PART, IMAGE, CELLS, FIRST, P, WP, OUT, SVG, OPTIONS };

static const char *const options[OPTIONS] = {"--part", "--image", "--cells", "--first", "--p", "--wp", "--out", "--svg"};

/* Takes one option, with its word where it has one; gives how many words it took, none where it is wrong. */
static int take(char **words, int left, const char **given, struct asked *asked)
{
    bool *flag = strcmp(words[0], "--pad") == 0 ? &asked->pad : strcmp(words[0], "--map") == 0 ? &asked->map : NULL;
    if (flag != NULL) {
        *flag = true;
        return 1;
    }
    for (int i = 0; i < OPTIONS; i++)
        if (strcmp(words[0], options[i]) == 0 && left > 1 && given[i] == NULL) {
            given[i] = words[1];
            return 2;
        }
    return 0;
}

/* What the words given ask. */
static int understand(const char **given, struct asked *asked)
{
    if (given[PART] == NULL || given[IMAGE] == NULL)
        return wrong_call("load wants --part PART and --image FILE", "");
    if (!part_of(given[PART], &asked->part))
        return wrong_call("there is no part ", given[PART]);
    if (given[FIRST] != NULL && !number_of(given[FIRST], &asked->first))
        return wrong_call("--first: no number below 4,294,967,296: ", given[FIRST]);
    if (given[P] != NULL && !number_of(given[P], &asked->p))
        return wrong_call("--p: no number below 4,294,967,296: ", given[P]);
    if (given[WP] != NULL && strcmp(given[WP], "low") != 0 && strcmp(given[WP], "high") != 0)
        return wrong_call("--wp: neither low nor high: ", given[WP]);
    if (given[OUT] != NULL && given[SVG] != NULL && strcmp(given[OUT], given[SVG]) == 0)
        return wrong_call("--out and --svg are one file: ", given[OUT]);
    asked->wp = given[WP] == NULL || strcmp(given[WP], "high") == 0;
    asked->cells = given[CELLS];
    asked->image = given[IMAGE];
    asked->out = given[OUT];
    asked->svg = given[SVG];
    return STATUS_DONE;
}

static int command_load(char **words, int count)
{
    struct asked asked = {0, 0, 10, 1, NULL, NULL, NULL, NULL, false, false};
    const char *given[OPTIONS] = {NULL, NULL, NULL, NULL, NULL, NULL, NULL, NULL};
    for (int at = 0, taken; at < count; at += taken) {
        taken = take(words + at, count - at, given, &asked);
        if (taken == 0)
            return wrong_call("no option of load, or without its word, or given twice: ", words[at]);
    }
    int status = understand(given, &asked);
    return status == STATUS_DONE ? load(&asked) : status;
}

static int command_bill(const char *path)
{
    struct bytes file;
    int status = read_bytes(path, &file);
    if (status == STATUS_DONE) {
        const struct station_bill bill = station_bill(file.at, file.count);
        if (bill.answer != STATION_TAKEN)
            status = refused(bill.answer);
        else
            print_bill(&bill, station_job(file.at, file.count).p);
    }
    free_bytes(&file);
    return status;
}

static int command(char **words, int count)
{
    if (count == 0)
        return wrong_call("give a command: parts, load or bill", "");
    if (strcmp(words[count - 1], "--help") == 0 || strcmp(words[0], "-h") == 0) {
        fputs(help, stdout);
        return STATUS_DONE;
    }
    if (strcmp(words[0], "load") == 0)
        return command_load(words + 1, count - 1);
    if (strcmp(words[0], "parts") == 0)
        return count == 1 ? print_parts() : wrong_call("parts takes no word: ", words[1]);
    if (strcmp(words[0], "bill") == 0)
        return count == 2 ? command_bill(words[1]) : wrong_call("bill wants one FILE.job", "");
    return wrong_call("there is no command ", words[0]);
}

int main(int count, char **words)
{
    int status = count > 0 ? command(words + 1, count - 1) : command(words, 0);
    if (fflush(stdout) != 0 || ferror(stdout))
        return fault(STATUS_FILE, "standard output cannot be written");
    return status;
}
