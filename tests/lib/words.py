#!/usr/bin/env python3
"""Prints 30,000 words that differ: a prefix and two endings each."""
STEMS = """cat pon sky hop fall feed agr siz trobl plast motor bled conflat fil happ relat condition ration
val hesit digit conform radic differ analog vietn predic oper feudal decis hope call form sensit sens triplic
electr goodn reviv allow infer airlin gyroscop adjust defens irrit replac depend adopt commun activ angular
homolog effect bowdl prob rat ceas contr roll""".split()
ENDINGS = [""] + """s es ies sses ed eed ing at ational ation ator ly li al alli able ible ance ence er izer ization
ize y ic ical iciti ative fulness ousness""".split()

if __name__ == "__main__":
    words = dict.fromkeys(stem + first + last for stem in STEMS for first in ENDINGS for last in ENDINGS)
    print("\n".join(list(words)[:30000]))
