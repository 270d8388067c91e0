#include "commands.h"

#include <string.h>

static const char whole[] =
    "usage: troughiron COMMAND ...\n"
    "\n"
    "A software bench for 1-Wire memory buttons: DS1992, DS1993, DS1996 and the add-only DS1982.\n"
    "\n"
    "  new IMAGE DEVICE...    write an image of a bench\n"
    "  show IMAGE             print every device of an image\n"
    "  edit IMAGE VERB...     add, remove or set devices, or take a memory out to a file\n"
    "  run IMAGE SESSION      run a session and print what the line answered\n"
    "  run SESSION            the same of a session that names its bench\n"
    "  test SESSION...        run sessions that name their bench as tests, a line each\n"
    "  judge IMAGE SESSION    judge whether a session, or a recording of one, is careful\n"
    "  search IMAGE           find the codes on the line\n"
    "  check CODE             check a registration code\n"
    "  serve IMAGE            put the devices behind a serial port, for a program to drive\n"
    "\n"
    "  troughiron help COMMAND      the options of a command, as troughiron COMMAND --help\n"
    "  troughiron -V, --version     the version\n"
    "\n"
    "A file named '-' is standard input or standard output.\n"
    "\n"
    "Exit status: 0 done, 1 bad input or a system error, 2 wrong usage, 3 'check' says not valid,\n"
    "4 'judge' does not accept the session, 5 'run': an expectation is not met,\n"
    "11 to 17 and 21 the library's refusals 1 to 7 and 11.\n";

static const char new_help[] =
    "usage: troughiron new [OPTION...] IMAGE DEVICE...\n"
    "\n"
    "Writes an image of new devices. A DEVICE is [Nx]KIND[,flat][:SERIAL][@FILE]:\n"
    "  KIND      ds1992, ds1993, ds1996 or ds1982\n"
    "  flat      its battery is flat: it gives its code, and takes no memory command; not for a ds1982\n"
    "  SERIAL    serial number, twelve hexadecimal digits as engraved; else counted up from 000000000001\n"
    "  FILE      the memory's bytes from address 0 on\n"
    "  N         that many of a kind\n"
    "\n"
    "  --fill HH        fill memories with a byte; else 00, and FF for a DS1982\n"
    "  --memory FILE    the memory of every device without a FILE of its own\n"
    "  --serial SERIAL  count serial numbers up from this one\n"
    "  --empty          a bench without devices\n"
    "  -f, --force      replace IMAGE where it is an image; else no file that is there is replaced\n";

static const char show_help[] =
    "usage: troughiron show [--json] IMAGE\n"
    "\n"
    "Prints every device: kind and code, a flat battery, TA, E/S with its flags, scratchpad and memory; of a DS1982\n"
    "status and data, with the pages that are write-protected or redirected. A redirection is shown, not followed.\n"
    "\n"
    "  --json    print it for programs\n";

static const char edit_help[] =
    "usage: troughiron edit [OPTION...] IMAGE VERB...\n"
    "\n"
    "Changes an image, complete or not at all, where the library accepts what comes of it:\n"
    "  add DEVICE...              devices after those that are there, as for 'new'\n"
    "  remove #2...               devices; those after them move up\n"
    "  set #2 memory 0026 41 37   bytes from an address on; so too scratchpad, and data and status of a DS1982\n"
    "  set #2 TA 0026             a register, TA or E/S\n"
    "  set #2 flat                the battery, flat or good\n"
    "  take #2 FILE               write the memory, or the data of a DS1982, to FILE; the image stays as it is\n"
    "\n"
    "  -o, --output FILE    write the changed image to FILE, and leave IMAGE as it is\n"
    "  -f, --force          replace FILE where it is an image or, for 'take', has the size of a memory\n";

static const char run_help[] =
    "usage: troughiron run [OPTION...] IMAGE SESSION\n"
    "       troughiron run [OPTION...] SESSION\n"
    "       troughiron run [OPTION...] IMAGE --trace FILE\n"
    "\n"
    "Runs a session and prints each step with what was sent and what the line answered, what each accepted copy\n"
    "wrote, after each transaction, from one reset to the next, what changed in which device, and at the end the\n"
    "bytes copied and what changed in all. A '!' marks where the line was not as the master wrote it.\n"
    "The image is left alone unless -o names it. The first event is a reset. Steps, one a line, in small letters\n"
    "or capitals:\n"
    "  reset            reset and presence, at regular speed\n"
    "  skip             skip ROM: CC\n"
    "  match CODE       match ROM: 55 and a code, or #2 for the image's second device\n"
    "  overdrive skip   overdrive skip ROM: 3C, and what follows at overdrive; so too overdrive match CODE: 69\n"
    "  overdrive reset  a reset at overdrive\n"
    "  speed overdrive  the speed of the master, or speed regular\n"
    "  read-rom         read ROM: 33, and read slots for 8 bytes\n"
    "  search #2        search ROM: F0, and a search led along the code of a device\n"
    "  send 0F 26 00    bytes, least significant bit first; crc8, crc16: the CRC of those before it in the step\n"
    "  bits 0110        single slots, in this order\n"
    "  read 5           read slots for so many bytes\n"
    "  pulse            program pulse\n"
    "  events 2 0 1 3   raw events: 0 and 1 slots, 2 reset, 3 pulse, 4 to 6 slots and reset at overdrive\n"
    "  # a comment\n"
    "  bench ds1992 ds1993:000000FBC52B   the devices, as for 'new', or 'empty'; first, and without an IMAGE\n"
    "  name tray-7 = #2         a name for a device: match tray-7\n"
    "  keep pattern 3           keep the bytes of the last read, or the first three of them: send 55 $pattern\n"
    "  repeat 3 .. end          the lines between them so many times\n"
    "  include FILE             the lines of another file, beside this one\n"
    "What is expected, of the step before and of what a device then holds; '..' is any byte, '...' any further ones:\n"
    "  expect 26 00 07 ..       expect presence        expect no presence      expect bits 01.0\n"
    "  expect #2 memory 0026 41 37                     expect #2 scratchpad 06 41 37\n"
    "  expect #2 data 0005 3C   expect #2 status 00 FF ..\n"
    "  expect #2 TA 0026        expect #2 E/S 87       expect #2 AA no PF      expect #2 unchanged\n"
    "Where one is not met, the run goes on to its end, no image is written, and the status is 5.\n"
    "\n"
    "  -o, --output FILE    write the image as the devices are left\n"
    "  --trace FILE         take raw events, a byte each, in place of a session\n"
    "  --answers FILE       write the answers, a byte for each event\n"
    "  --write-trace FILE   write the events, a byte each\n"
    "  --vcd FILE           write the line as a waveform, with a save file for GTKWave (.gtkw) beside it\n"
    "  --html FILE          write the run as a page for a browser: the line, its bytes, and what changed\n"
    "  --json               print the report for programs\n"
    "  --bits               show every slot, not only bytes\n"
    "  --quiet              print no report\n"
    "  --room N             lend the run N bytes for the answers; too few are refused (7)\n"
    "  -f, --force          replace files that are there, each only by its like; without it only "
    "-o IMAGE replaces one\n";

static const char test_help[] =
    "usage: troughiron test [OPTION...] SESSION...\n"
    "\n"
    "Runs sessions that name their bench, each by itself, and prints a line for each in the Test Anything Protocol,\n"
    "with the expectations that are not met under it. A session that expects nothing fails. Ends with 1 where one\n"
    "fails. 'troughiron run --help' has the steps.\n"
    "\n"
    "  -j N             run so many side by side, 1 to 64\n"
    "  --junit FILE     write the outcome as a JUnit file too\n"
    "  --json           print the outcome for programs, in place of those lines\n"
    "  -f, --force      replace FILE where it is such a file of this command\n";

static const char judge_help[] =
    "usage: troughiron judge [OPTION...] IMAGE SESSION\n"
    "       troughiron judge [OPTION...] SESSION\n"
    "       troughiron judge [OPTION...] IMAGE --trace FILE\n"
    "\n"
    "Accepts a session if all of this holds, and else says which rule is broken, at which event, counted from 0,\n"
    "and line, by which device, and what was missing:\n"
    "  A  The answers that a program recorded are those of the bench.\n"
    "  B  No memory command 0F or 55 is complete while more than one device is there to take it.\n"
    "  C  Each accepted copy comes after a write scratchpad to that device in this session; and between the 16th\n"
    "     address bit of its last one and the copy, a read scratchpad of it showed on the line TA1, TA2, E/S and\n"
    "     all bytes from T4:T0 through the ending offset, as they stand just before the copy.\n"
    "A is looked for first, over the whole session, then the first of B and C. What a session expects is no matter.\n"
    "Ends with 0 for a session that is accepted and with 4 for another.\n"
    "\n"
    "  --answers FILE   the answers that were recorded, a byte for each event; else those of the bench\n"
    "  --trace FILE     take raw events, a byte each, in place of a session\n"
    "  --json           print the verdict for programs\n";

static const char search_help[] =
    "usage: troughiron search [OPTION...] IMAGE\n"
    "\n"
    "Finds the codes on the line as a searching master does, in its order, with the numbers of passes, "
    "resets and slots.\n"
    "\n"
    "  --json               print the report for programs\n"
    "  --answers FILE       write the answers that the master saw, a byte for each event\n"
    "  --write-trace FILE   write the events that it sent, a byte each\n"
    "  --vcd FILE           write the line as a waveform, with a save file for GTKWave (.gtkw) beside it\n"
    "  -f, --force          replace files that are there, each only by its like\n";

static const char check_help[] =
    "usage: troughiron check [--json] CODE\n"
    "\n"
    "Checks a registration code and says in which order it was read:\n"
    "  08 000000000001 C6         family code, serial number as engraved, CRC\n"
    "  08 01 00 00 00 00 00 C6    the bytes as the line has them\n"
    "  08.000000000001            without a CRC\n"
    "with blanks, dashes, dots and colons between the digits, and a report's #1 and DS1992 beside them. The order is\n"
    "that in which the CRC is right; where that does not tell, eight pairs of digits are in the order of the line.\n"
    "Ends with 0 for a valid code and with 3 for another.\n"
    "\n"
    "  --json    print it for programs\n";

static const char serve_help[] =
    "usage: troughiron serve [OPTION...] IMAGE\n"
    "\n"
    "Opens a terminal that a program takes for a serial port with a 1-Wire adapter, prints its name, and answers as\n"
    "the adapter and the devices of the image do. Ends with 'quit', the end of input, or a signal (INT, TERM, HUP).\n"
    "\n"
    "  --adapter ds9097     a passive adapter (the default), or ds2480b, that of a DS9097U\n"
    "  --link PATH          make PATH a link to the terminal, and print no name\n"
    "  -o, --output FILE    write the image as the devices are left, on the way out\n"
    "  --record NAME        write what happened to NAME-1.image, .trace, .answers and .session, NAME-2 and so on\n"
    "  --log FILE           write a line for each transaction; '-' is standard output\n"
    "  --script FILE        commands, one a line, each with its moment before it: 'after 12: attach #2' comes after\n"
    "                       so many resets, 'seen 0F 26 00: detach #1' once the line has carried these bytes\n"
    "  --quiet              no status line on a terminal\n"
    "  -f, --force          replace files that are there, each only by its like\n"
    "\n"
    "Commands on standard input, which the next regular reset finds done:\n"
    "  attach #2, detach #2   put a device on the line, or take it off; its memory is kept\n"
    "  flat #2, good #2       its battery\n"
    "  show                   the devices\n"
    "  save FILE              write the image as the devices are now\n"
    "  quit\n";

const char *help_text(const char *command)
{
    static const struct {
        const char *command, *text;
    } texts[] = { { "", whole },        { "new", new_help },       { "show", show_help },
                  { "edit", edit_help },
                  { "run", run_help },  { "search", search_help }, { "check", check_help },
                  { "serve", serve_help }, { "test", test_help },
                  { "judge", judge_help } };

    for (size_t i = 0; i < sizeof texts / sizeof *texts; i++)
        if (strcmp(command, texts[i].command) == 0)
            return texts[i].text;
    return NULL;
}
