import os
print(sorted(os.listdir('plugins')))
