let total = 1;
for (let i = 0; i < 3; i++) { total = total + ; }
