from changed import show


def change(records):
    for it in records:
        it['seen'] += 'kept' in it
    return records


show(change)
