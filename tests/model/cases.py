# The cases of the bench for whole boots and for forms, worked out from the description of a machine and of a boot alone (boots.py).
#   cases.py cases             the lines of the script, with two forms of its own: `keep` keeps the machine as it is, and
#                                   `again` is the kept machine once more
#   cases.py cases plain       the same without them: what changed is rewritten
#   cases.py expected [plain]  the transcript that they are to come to
#   cases.py expected FILE     that of another script; `  ?` stands below lines that the model does not know
#   cases.py failing           lines on failing calls
#   cases.py failing forms     the same of what is shown, and of records in pages
#   cases.py forms             lines on the forms of maps, GBBs, keyblocks, preambles, slots, bodies and entries, row by row
#   cases.py expected forms    the transcript that these are to come to
#   cases.py crossings         lines on crossystem and migrate, and with `expected` or `failing` as of forms
#   cases.py sgdisk            lines on tables that sgdisk wrote, changed ones, and on repairs and `make` that are stopped
#   cases.py tables            lines on the commands that change a table or look for entries
#   cases.py check FILE        what a transcript of the bench has that the model has otherwise, and which laws on failing
#                                   calls it breaks
import sys
from compare import *
from crossings import *
from failing import *
from sgdisk_tables import *
from table_cases import *
from whole_boots import *

if __name__ == '__main__':
    verb, *words = sys.argv[1:] or ['']
    if verb in ('cases', 'expected') and words in ([], ['plain']):
        s = plain(cases().lines) if words else cases()
        print(*(s.lines if verb == 'cases' else s.bench.out), sep='\n')
    elif [verb, *words] in (['forms'], ['expected', 'forms']): print(*(forms().bench.out if words else forms().lines), sep='\n')
    elif [verb, *words] in (['crossings'], ['expected', 'crossings']): print(*(crossings().bench.out if words else crossings().lines), sep='\n')
    elif [verb, *words] == ['failing', 'crossings']: print(*failing_crossings().lines, sep='\n')
    elif [verb, *words] == ['failing', 'forms']: print(*failing_forms().lines, sep='\n')
    elif verb == 'failing' and words in ([], ['plain']): print(*(plain(failing().lines) if words else failing()).lines, sep='\n')
    elif (verb, words) == ('sgdisk', []): print(*sgdisk_tables().lines, sep='\n')
    elif (verb, words) == ('tables', []): print(*table_cases().lines, sep='\n')
    elif verb == 'expected' and len(words) == 1:
        bench = Bench()
        for line in open(words[0]).read().split('\n'): bench.line(line)
        print(*bench.out, sep='\n')
    elif verb == 'check' and len(words) == 1: sys.exit(not check(open(words[0]).read().split('\n')))
    else: sys.exit('usage: cases.py cases [plain], forms, crossings, sgdisk, tables, expected [plain, forms, crossings or FILE], failing [plain, forms or crossings], check FILE')
