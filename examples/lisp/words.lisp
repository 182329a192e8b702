;;;; The words that name addresses, places, numbers, users and paths: each is read strictly.

(in-package :chaosnet)

(defun expected (word what) (fail 'bad-word "invalid value '" word "': expected " what))

(defun pieces (divider string)
  "What stands between the DIVIDERs of STRING."
  (loop for start = 0 then (1+ end)
        for end = (position divider string :start start)
        collect (subseq string start end)
        while end))

(defun digits-p (word radix most)
  (and (<= 1 (length word) most) (every (lambda (char) (digit-char-p char radix)) word)))

(defun number-word (word least most what)
  "A decimal number without leading zeros."
  (let ((number (and (digits-p word 10 10)
                     (or (= 1 (length word)) (char/= #\0 (char word 0)))
                     (parse-integer word))))
    (if (and number (<= least number most)) number (expected word what))))

(defun address-word (word)
  "A Chaosnet address, in octal."
  (let ((address (and (digits-p word 8 6) (parse-integer word :radix 8))))
    (if (and address (<= 1 address 65535))
        address
        (expected word "1 to 6 octal digits, from 1 to 177777"))))

(defun place-word (word)
  "A UDP address a.b.c.d:port, as a list of the four octets and the port."
  (let* ((what "a.b.c.d:port, in decimal without leading zeros")
         (halves (pieces #\: word))
         (parts (pieces #\. (first halves))))
    (unless (and (= 2 (length halves)) (= 4 (length parts))) (expected word what))
    (list (map 'vector (lambda (part) (number-word part 0 255 what)) parts)
          (number-word (second halves) 1 65535 what))))

(defun peer-word (word &optional (address #'address-word))
  "A host and its place, ADDRESS=UDP, as a list of the address, the octets and the port."
  (let ((halves (pieces #\= word)))
    (unless (= 2 (length halves)) (expected word "ADDRESS=UDP, as 401=127.0.0.1:9001"))
    (cons (funcall address (first halves)) (place-word (second halves)))))

(defun peer-words (words)
  "The peers of a server. *=UDP is the place of all hosts that no other word names, as a bridge's."
  (flet ((address (word) (or (string= word "*") (address-word word))))
    (mapcar (lambda (word) (peer-word word #'address)) words)))

(defun name-char-p (char)
  "Is it an ASCII letter or digit?"
  (let ((code (char-code char)))
    (or (<= #o60 code #o71) (<= #o101 code #o132) (<= #o141 code #o172))))

(defun name-p (string least most)
  (and (<= least (length string) most) (every #'name-char-p string)))

(defun contact-word (word)
  "The name of a contact."
  (if (and (<= 1 (length word) 64) (every (lambda (char) (char< #\Space char #\Rubout)) word))
      word
      (expected word "a contact: 1 to 64 characters of ASCII, none of them a space")))

(defun path-p (string)
  "May a file of FILE have this path?"
  (and (<= 1 (length string) 64)
       (char/= #\. (char string 0))
       (every (lambda (char) (or (name-char-p char) (find char ".-_"))) string)))
