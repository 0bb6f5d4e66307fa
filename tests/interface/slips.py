"""Shows that held.py can fail: a tiny crate, header and wrapper pass, and of each slip in them, that slip is found and nothing else."""
from held import CRATE, HEADER, LIBRARY, WRAPPER

OF_HALF = ('#[unsafe(no_mangle)]\npub extern "C" fn w_half(words: &[u32], list: &mut [u8], left: &mut usize, right: &mut usize) -> u64\n'
           '    ensures low { Half words.now result }\n    ensures high { told.Most list.new }\n')
OF_SUM = '#[unsafe(no_mangle)]\npub extern "C" fn w_sum(\n    words: &[u32],\n    hard: u32,\n    sum: &mut u64,\n) -> u64 '
GOOD = {
    CRATE: 'ghost use Rattle.half.specs.Half.{Half, Whole};\nghost use Rattle.half.specs.Told as told;\n\n'
           '// none: #[unsafe(no_mangle)]\nfn own(x: u32) -> u64 {\n    0\n}\n\n' +
           OF_HALF + '{\n    exports::w_half(words, list, left, right)\n}\n\n' + OF_SUM + '{\n    exports::w_sum(words, hard, sum)\n}\n',
    LIBRARY: 'ghost use Rattle.half.specs.Half.{Third, Half, Whole};\nghost use Rattle.half.specs.Told as told;\n\nuse half::Half;\n\n' +
             OF_HALF + '{\n    1\n}\n\n' + OF_SUM + '{\n    0\n}\n',
    HEADER: '/* none: uint64_t w_other(size_t x); */\n#define WICKCOLLAR_DONE UINT64_C(0)\n#define WICKCOLLAR_FIRST UINT32_C(3)\n'
            '#define WICKCOLLAR_MOST 40\nstatic inline unsigned w_number(uint64_t answer) { return (unsigned)(answer >> 56); }\n'
            'uint64_t w_half(const uint32_t *words, size_t words_length, uint8_t *list, size_t list_length,\n'
            '                size_t *left, size_t *right);\n'
            'uint64_t w_sum(const uint32_t *words, size_t words_length, uint32_t hard, uint64_t *sum);\n',
    WRAPPER: '// none: pub fn w_other() -> u64;\nextern "C" {\n'
             '    pub fn w_half(words: *const u32, words_length: usize, list: *mut u8, list_length: usize, left: &mut usize, right: &mut usize) -> u64;\n'
             '    pub fn w_sum(\n        words: *const u32,\n        words_length: usize,\n        hard: u32,\n        sum: &mut u64,\n    ) -> u64;\n}\n'
             'pub const FIRST: u32 = 3;\npub const MOST: usize = 40;\n'
             'archive::w_half(words.as_ptr(), words.len(), list.as_mut_ptr(), list.len(), &mut left, &mut is.right)\n'
             'archive::w_sum(words.as_ptr(), words.len(), by.hard, &mut all)\n',
}
HALF = 'words: *const u32, words_length: usize, list: *mut u8, list_length: usize, left: *mut usize, right: *mut usize'
SUM = 'words: *const u32, words_length: usize, hard: u32, sum: *mut u64'


def other(file, name, theirs, ours):
    return f'{file}: {name} is {theirs}; in {CRATE} it is {ours}'


def half(file, theirs):
    return other(file, 'w_half', f'({theirs}) -> u64', f'({HALF}) -> u64')


def summed(file, theirs):
    return other(file, 'w_sum', f'({theirs}) -> u64', f'({SUM}) -> u64')


SWAPPED = HALF.replace('left: *mut usize, right: *mut usize', 'right: *mut usize, left: *mut usize')
UNLIKE = f'{CRATE}: w_half does not promise what it does in {LIBRARY}'
SLIPS = [  # a file, what stands there, what stands there instead, and what is found
    (CRATE, 'left: &mut usize, right: &mut usize', 'right: &mut usize, left: &mut usize',
     [UNLIKE] + [other(file, 'w_half', f'({HALF}) -> u64', f'({SWAPPED}) -> u64') for file in (HEADER, WRAPPER)]),
    (CRATE, '    hard: u32,\n', '',
     [UNLIKE.replace('half', 'sum')]
     + [other(file, 'w_sum', f'({SUM}) -> u64', f'({SUM.replace("hard: u32, ", "")}) -> u64') for file in (HEADER, WRAPPER)]),
    (CRATE, 'fn own', '#[unsafe(no_mangle)]\npub extern "C" fn own',
     [UNLIKE.replace('w_half', 'own')] + [other(file, 'own', 'not there', '(x: u32) -> u64') for file in (HEADER, WRAPPER)]),
    (CRATE, 'fn own', 'pub extern "C" fn own',
     [f'{CRATE} has 3 marks for other programs, and 2 functions that can be read', UNLIKE.replace('w_half', 'own')]),
    (CRATE, '#[unsafe(no_mangle)]\npub extern "C" fn w_sum', '#[no_mangle]\npub extern "C" fn w_sum',
     [f'{CRATE} has 2 marks for other programs, and 1 functions that can be read']
     + [other(file, 'w_sum', f'({SUM}) -> u64', 'not there') for file in (HEADER, WRAPPER)]),
    (CRATE, 'list: &mut [u8]', 'list: &mut Vec<u8>',
     [f'{CRATE}: w_half has a parameter that cannot be read: list: &mut Vec<u8>', UNLIKE]
     + [other(file, 'w_half', f'({HALF}) -> u64', f'({HALF.replace("list: *mut u8, list_length: usize", "?")}) -> u64') for file in (HEADER, WRAPPER)]),
    (CRATE, '    ensures low { Half words.now result }\n', '', [UNLIKE]),
    (CRATE, 'Half words.now', 'Half words.old', [UNLIKE]),
    (CRATE, '{Half, Whole}', '{Third as Half, Whole}', [f'{CRATE}: ghost use Rattle.half.specs.Half.Third as Half is not in {LIBRARY}']),
    (CRATE, 'specs.Told as told', 'specs.Most as told', [f'{CRATE}: ghost use Rattle.half.specs.Most as told is not in {LIBRARY}']),
    (LIBRARY, 'told.Most list.new', 'told.Most list.old', [UNLIKE]),
    (LIBRARY, 'fn w_half', 'fn w_all', [UNLIKE]),
    (HEADER, 'size_t *left, size_t *right', 'size_t *right, size_t *left', [half(HEADER, SWAPPED)]),
    (HEADER, 'uint8_t *list', 'const uint8_t *list', [half(HEADER, HALF.replace('list: *mut', 'list: *const'))]),
    (HEADER, 'uint8_t *list', 'uint32_t *list', [half(HEADER, HALF.replace('*mut u8', '*mut u32'))]),
    (HEADER, 'uint8_t *list, size_t list_length', 'size_t list_length, uint8_t *list',
     [half(HEADER, HALF.replace('list: *mut u8, list_length: usize', 'list_length: usize, list: *mut u8'))]),
    (HEADER, 'uint32_t hard', 'uint64_t hard', [summed(HEADER, SUM.replace('hard: u32', 'hard: u64'))]),
    (HEADER, 'uint64_t *sum', 'uint32_t *sum', [summed(HEADER, SUM.replace('u64', 'u32'))]),
    (HEADER, 'uint32_t hard', 'unsigned hard',
     [f'{HEADER}: w_sum has a parameter that cannot be read: unsigned hard', summed(HEADER, SUM.replace('hard: u32', '?'))]),
    (HEADER, 'uint64_t w_sum', 'uint32_t w_sum', [other(HEADER, 'w_sum', f'({SUM}) -> u32', f'({SUM}) -> u64')]),
    (HEADER, 'uint64_t w_sum', 'uint64_t w_all',
     [other(HEADER, 'w_all', f'({SUM}) -> u64', 'not there'), other(HEADER, 'w_sum', 'not there', f'({SUM}) -> u64')]),
    (HEADER, 'FIRST UINT32_C(3)', 'FIRST UINT32_C(4)', [f'FIRST is 4 in {HEADER}, 3 in {WRAPPER}']),
    (WRAPPER, 'left: &mut usize, right: &mut usize', 'right: &mut usize, left: &mut usize',
     [half(WRAPPER, SWAPPED), f'{WRAPPER}: the call of w_half has &mut left for right: *mut usize',
      f'{WRAPPER}: the call of w_half has &mut is.right for left: *mut usize']),
    (WRAPPER, 'sum: &mut u64', 'sum: *const u64',
     [summed(WRAPPER, SUM.replace('*mut u64', '*const u64')), f'{WRAPPER}: the call of w_sum has &mut all for sum: *const u64']),
    (WRAPPER, '&mut left, &mut is.right', '&mut is.right, &mut left',
     [f'{WRAPPER}: the call of w_half has &mut is.right for left: *mut usize', f'{WRAPPER}: the call of w_half has &mut left for right: *mut usize']),
    (WRAPPER, 'list.as_mut_ptr(), list.len()', 'list.as_mut_ptr(), words.len()', [f'{WRAPPER}: the call of w_half has words.len() for list_length: usize']),
    (WRAPPER, 'list.as_mut_ptr()', 'list.as_ptr()', [f'{WRAPPER}: the call of w_half has list.as_ptr() for list: *mut u8']),
    (WRAPPER, 'by.hard, &mut', '&mut', [f'{WRAPPER}: the call of w_sum has 3 arguments, not 4']),
    (WRAPPER, 'archive::w_sum', 'archive::w_all', [f'{WRAPPER}: w_sum is declared and never called']),
    (WRAPPER, 'MOST: usize = 40', 'MOST: usize = 41', [f'MOST is 40 in {HEADER}, 41 in {WRAPPER}']),
]
