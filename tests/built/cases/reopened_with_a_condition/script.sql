SELECT s FROM t WHERE a IN (2, 3) AND NOT s = 'a';
