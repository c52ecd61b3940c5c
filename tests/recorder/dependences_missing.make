from changed import numbered, show


def change(records):
    return numbered([it for it in records if it['cb'] != 'dependences'])


show(change)
