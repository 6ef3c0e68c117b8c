import os
print(sorted(os.listdir(os.path.dirname(os.path.abspath(__file__)))))
