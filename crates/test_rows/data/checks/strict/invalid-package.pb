

a.protoa..b