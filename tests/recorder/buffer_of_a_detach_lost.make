from changed import show


def change(records):
    return [it for it in records if it['thread'] != 1]


show(change)
