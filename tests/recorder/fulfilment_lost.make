from changed import numbered, show


def change(records):
    kept = [it for it in records if it.get('status') != 'late_fulfill']
    for it in kept:
        it['seen'] = min(it['seen'], 3)
    return numbered(kept)


show(change)
