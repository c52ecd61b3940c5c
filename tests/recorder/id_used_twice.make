from changed import show


def change(records):
    for it in records:
        it.update({name: 5 for name in ('child', 'task', 'prior', 'next') if it.get(name) == 6})
    return records


show(change)
