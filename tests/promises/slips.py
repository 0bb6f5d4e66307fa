"""Shows that the check can fail: a tiny repository of two libraries and a program passes, and of each slip in it, that slip is found and nothing else."""
GOOD = {
    'crates.txt': '# a comment: none\nhalf:\nhalf_c staticlib: half\nshow: half\noutcomes: half\n',
    'crates/half/src/lib.rt': 'pub fn half_of(x: u32) -> u32 {\n    x / 2\n}\n\npub fn print(x: u32) {\n}\n\nfn own(x: u32) {\n}\n',
    'crates/half/must-fail/third.edit': '',
    'crates/half/must-fail/whole.edit': '',
    'crates/half_c/src/lib.rt': '#[unsafe(no_mangle)]\npub extern "C" fn half_of(x: u32) -> u32 {\n    half::half_of(x)\n}\n',
    'crates/show/src/main.rt': 'fn main() {\n}\n',
    'crates/outcomes/src/lib.rt': '',
    'crates/outcomes/proofs/All.antt': 'use Rattle.half as h\n\n'
                                       'pub half_half_of_decided : Decided h.specs.contracts.half_of.ended h.proofs.half_of.Reads.Post\n'
                                       'half_half_of_decided = decided λ _ _ _ _ p q. search same\n',
    'docs/PROMISES.md': '| `half::half_of(x)` | half of it | `third`, `whole` |\n\n### Functions without such a theorem\n\n'
                        '| `half::print(x)` | it prints |\n| `show::main` | it prints |\n| `half_c::half_of(x)` | none builds on it |\n\n## More\n',
}
LIBRARY, OF_C, THEOREMS, PROMISES = 'crates/half/src/lib.rt', 'crates/half_c/src/lib.rt', 'crates/outcomes/proofs/All.antt', 'docs/PROMISES.md'
ANOTHER = f'{THEOREMS}: half_half_of_decided does not say of the function in its name that it is decided'
NONE = 'half_of of half has no theorem that it is decided, and no reason'
SLIPS = [  # a file, what stands there, what stands there instead, and what is found
    (LIBRARY, 'fn own', 'pub fn own',
     [f'{PROMISES} does not name function own of half', 'own of half has no theorem that it is decided, and no reason']),
    (LIBRARY, 'fn own', 'impl From<u32> for Half {\n    fn from(x: u32) -> Half {\n    }\n}\n\nfn own',
     [f'{PROMISES} does not name function HalfFromU32.from of half', 'HalfFromU32.from of half has no theorem that it is decided, and no reason']),
    (LIBRARY, 'fn own', 'pub trait Halved: Copy {\n    fn halved(self) -> u32;\n}\n\nfn own',
     [f'{PROMISES} does not name function Halved.halved of half', 'Halved.halved of half has no theorem that it is decided, and no reason']),
    (LIBRARY, 'pub fn print', 'fn print', [f'{PROMISES} names function print of half, which is not there']),
    (OF_C, 'pub extern "C" fn', 'fn', [f'{PROMISES} names function half_of of half_c, which is not there']),
    (THEOREMS, 'pub half_half_of_decided', 'half_half_of_decided', [NONE]),
    (THEOREMS, 'proofs.half_of', 'proofs.print', [ANOTHER, NONE]),
    (THEOREMS, '.half_of.', '.print.', [ANOTHER, NONE]),
    (THEOREMS, 'use Rattle.half', 'use Rattle.third', [ANOTHER, NONE]),
    (THEOREMS, 'h.proofs', 'g.proofs', [ANOTHER, NONE]),
    (THEOREMS, 'as h\n', 'as h\n\npub half_print_decided : Decided h.specs.contracts.print.ended h.proofs.print.Reads.Post\n',
     ['print of half has a theorem that it is decided, and a reason for none']),
    (THEOREMS, 'Decided h.specs.contracts.half_of.ended h.proofs.half_of.Reads.Post', 'Decided (h.specs.contracts.half_of.ended T) (h.proofs.print.Reads.Post T)',
     [ANOTHER, NONE]),
    (PROMISES, '| it prints |\n| `show', '| |\n| `show', [f'{PROMISES} has no reason for `half::print(x)`']),
    (PROMISES, '| `show::main` | it prints |\n', '', ['main of show has no theorem that it is decided, and no reason']),
    (PROMISES, '| `half_c::half_of(x)` | none builds on it |\n', '',
     [f'{PROMISES} does not name function half_of of half_c', 'half_of of half_c has no theorem that it is decided, and no reason']),
    (PROMISES, '`show::main`', '`show::main`, `other`', [f'{PROMISES} names function other of show, which is not there']),
    (PROMISES, '`half::half_of(x)`', '`half::half_of(x)`, `other`', [f'{PROMISES} names function other of half, which is not there']),
    (PROMISES, ', `whole`', '',
     [f'{PROMISES} has no two wrong programs for `half::half_of(x)`', f'{PROMISES} does not name edit whole of half']),
    (PROMISES, ', `whole`', ', `whole`, `other`', [f'{PROMISES} names edit other of half, which is not there']),
    (PROMISES, ', `whole`', ', `whole`, `show/other`', [f'{PROMISES} names edit other of show, which is not there']),
]
