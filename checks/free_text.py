"""Inputs for the scripts of examples/ that read free text, and what the scripts then print: commas, calls and
unbalanced parentheses are ordinary characters there."""
import codecs

TEXT = 'one, (two) #(ps,three) ) ( ,five'
LINES = ['a, (b)', '#(ps,c)) (', ',', ')']

# What reads no free text: numbers and signs, and words of small letters.
OTHERS = ['broken/14-reads-always', 'broken/22-line-end-in-a-name', 'broken/23-line-end-in-an-answer',
          'broken/26-capitals-in-an-answer', 'calculator', 'sorting']


def turned(text):
    """Each small letter as the one thirteen places on in the alphabet."""
    return ''.join(codecs.encode(one, 'rot13') if one.islower() else one for one in text)


# A script, what stands behind its own string, and what is printed.
FREE_TEXT = [
    ('exercises/04-name', TEXT, f'Who are you? Good day, {TEXT}.'),
    ('exercises/13-letters', TEXT, ''.join(f'[{one}]' for one in TEXT)),
    ('exercises/14-vowels', TEXT, str(sum(TEXT.count(vowel) for vowel in 'aeiou'))),
    ('exercises/15-backwards', TEXT, ' '.join(reversed(TEXT.split(' ')))),
    ('exercises/16-secret', TEXT, turned(TEXT)),
    ('exercises/17-numbered', '\n'.join(['', *LINES, '', '']),
     ''.join(f'{number} {line}\n' for number, line in enumerate(LINES, 1))),
    ('exercises/18-last-first', '\n'.join(['', *LINES, '', '']),
     ''.join(f'{line}\n' for line in reversed(LINES))),
    ('exercises/19-change', '\ncat/d, (g) )(\nsat/#(ps,x)\n',
     'the d, (g) )( sat on the mat\nthe d, (g) )( #(ps,x) on the mat\n'),
    ('exercises/20-editor', f'\na {TEXT}\na ),\nc ),/, (#(ps,x)\np\nq\n', f'{TEXT}\n, (#(ps,x)\n'),
    ('greeting', f"{TEXT}'", f'What is your name?\nHello, {TEXT}!\n'),
    ('editor', f'\na {TEXT}\na ),\nc 2/),/, (#(ps,x)\ni 1 ) (,\np\nq\n',
     f'1 ) (,\n2 {TEXT}\n3 , (#(ps,x)\n'),
    ('animals', f'\nno\n{TEXT}\nWho, ) me?\nyes\nyes\nyes\nyes\nno\n',
     'Think of an animal.\nIs it a cat?\nI give up. What is it?\n'
     f'Which question tells {TEXT} from a cat?\nWhat is the answer for {TEXT}?\nOnce more?\n'
     f'Think of an animal.\nWho, ) me?\nIs it {TEXT}?\nI knew it.\nOnce more?\nGood bye.\n'),
    ('letters', '\n1;Mr, (Sir);A) #(ps,x);B(;C, D;E);F,;\n\n',
     'Mr, (Sir) A) #(ps,x) B(\nC, D\nE)\n\nDear Mr, (Sir) B(,\n\n'
     'the F, that you lent us (for 1 days, you said)\n'
     'is on its way back to E). We owe you 3 pence.\n\n'
     '                              The Library\n'
     '-------------------------------------------------\n1 letters, 3 pence\n'),
    ('justifier', f"{TEXT}'", f'{TEXT}\n'),
    ('basic', f'\n10 REM {TEXT}\n20 PRINT {TEXT}\n30 END\nRUN\n', f'{TEXT}\n'),
]
