module Part = Shut__part
