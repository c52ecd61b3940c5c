from changed import show


def change(records):
    for number, it in enumerate(records[2:15]):
        it['seq'] = number
    return records


show(change)
