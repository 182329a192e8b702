;;;; Packets: eight words of header and the data. docs/PROTOCOL.md: "Packets".

(in-package :chaosnet)

(defconstant +rfc+ #o1) (defconstant +opn+ #o2) (defconstant +cls+ #o3) (defconstant +fwd+ #o4)
(defconstant +ans+ #o5) (defconstant +sns+ #o6) (defconstant +sts+ #o7) (defconstant +los+ #o11)
(defconstant +eof+ #o14) (defconstant +unc+ #o15) (defconstant +data+ #o200)
(defconstant +header-size+ 16 "The octets of a header.")
(defconstant +most-data+ 488)

(defun data-opcode-p (opcode) (>= opcode +data+))

(defun item-opcode-p (opcode)
  "Is it the opcode of an item behind the one that begins a direction?"
  (or (data-opcode-p opcode) (= opcode +eof+)))

(defstruct (packet (:conc-name pkt-))
  (opcode 0) (forwarded 0) (to 0) (to-index 0) (from 0) (from-index 0) (number 0)
  (acknowledgement 0)
  (data (make-octets 0)))

(defun word-at (octets at) (logior (ash (aref octets at) 8) (aref octets (1+ at))))

(defun size-with (count)
  "The octets of a packet with COUNT octets of data, which are padded to whole words."
  (+ +header-size+ count (mod count 2)))

(defun write-packet (packet octets start)
  "Puts PACKET into OCTETS, which are zero, from START on, and gives where it ends."
  (let* ((data (pkt-data packet))
         (body (+ start +header-size+)))
    (loop for word in (list (ash (pkt-opcode packet) 8)
                            (logior (ash (pkt-forwarded packet) 12) (length data))
                            (pkt-to packet) (pkt-to-index packet)
                            (pkt-from packet) (pkt-from-index packet)
                            (pkt-number packet) (pkt-acknowledgement packet))
          for at from start by 2
          do (setf (aref octets at) (ash word -8) (aref octets (1+ at)) (ldb (byte 8 0) word)))
    (dotimes (i (length data) (+ start (size-with (length data))))
      (setf (aref octets (+ body (logxor i 1))) (aref data i))))) ; the first in the low half

(defun read-packet (octets start end)
  "The packet at START of OCTETS, and where it ends; or nil, and what is wrong with its words."
  (if (< (- end start) +header-size+)
      (values nil "1 Short")
      (flet ((word (i) (word-at octets (+ start (* 2 i)))))
        (let* ((count (ldb (byte 12 0) (word 1)))
               (body (+ start +header-size+))
               (next (+ start (size-with count)))
               (data (make-octets (min count +most-data+))))
          (cond
            ((> count +most-data+) (values nil "2 BadCount"))
            ((> next end) (values nil "3 Truncated"))
            (t
             (dotimes (i count)
               (setf (aref data i) (aref octets (+ body (logxor i 1)))))
             (values (make-packet :opcode (ash (word 0) -8) :forwarded (ash (word 1) -12)
                                  :to (word 2) :to-index (word 3)
                                  :from (word 4) :from-index (word 5)
                                  :number (word 6) :acknowledgement (word 7) :data data)
                     next)))))))
