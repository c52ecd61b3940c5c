from changed import show


def change(records):
    records[9]['seen'] = records[3]['seen']
    return records


show(change)
