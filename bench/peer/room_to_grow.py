"""Gives the mapping tables of the 6.1 kernel's nft_set_pipapo.c room to grow: words FROM TO.

6.1 copies the whole mapping table for each rule that it adds; kernels from 6.10 on take it in steps of about a page. The
copy that this writes does the same, so that insertions are compared with those of newer kernels. It edits no file of the
kernel's package.
"""
import sys

STEP = 512

GROWN = f"""
	if (f->mt && rules && roundup(rules, {STEP}) == roundup(old_rules, {STEP})) {{
		if (rules > old_rules)
			memset(f->mt + old_rules, 0, (rules - old_rules) * sizeof(*new_mt));
		if (new_lt) {{
			f->bsize = new_bucket_size;
			NFT_PIPAPO_LT_ASSIGN(f, new_lt);
			kvfree(old_lt);
		}}
		return 0;
	}}
"""


def replaced(text, old, new):
    if text.count(old) != 1:
        sys.exit(f"room_to_grow.py: this kernel's text has another form: {old!r}")
    return text.replace(old, new)


def main():
    with open(sys.argv[1]) as file:
        text = file.read()
    if "rules_alloc" not in text:
        text = replaced(text, "\nmt:\n", "\nmt:\n" + GROWN)
        text = replaced(text, "kvmalloc(rules * sizeof(*new_mt), ", f"kvmalloc(roundup(rules, {STEP}) * sizeof(*new_mt), ")
        text = replaced(text, "kvmalloc_array(src->rules, sizeof(*src->mt),",
                        f"kvmalloc_array(roundup(src->rules, {STEP}), sizeof(*src->mt),")
    with open(sys.argv[2], "w") as file:
        file.write(text)


main()
