from changed import show

show()
